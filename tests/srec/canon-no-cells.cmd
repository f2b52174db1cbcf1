canon nothing.s19
