check far-last-shown.s19
