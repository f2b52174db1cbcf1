where one.s19 100000000
