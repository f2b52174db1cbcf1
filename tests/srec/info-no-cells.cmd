info nothing.s19
