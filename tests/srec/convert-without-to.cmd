convert one.s19
