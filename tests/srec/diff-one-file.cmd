diff one.s19
