where one.s19 0 xyz
