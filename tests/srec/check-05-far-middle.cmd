check far-middle.s19
