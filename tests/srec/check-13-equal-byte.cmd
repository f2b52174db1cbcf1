check equal.s19
