check far-end.s19
