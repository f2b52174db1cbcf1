diff one.s19 one.s19 one.s19
