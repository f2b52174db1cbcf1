where one.s19
