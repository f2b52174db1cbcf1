check nothing.s19
