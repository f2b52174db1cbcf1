info equal.s19
