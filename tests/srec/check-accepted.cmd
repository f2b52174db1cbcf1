check one.s19
