check far-first-not-shown.s19
