info one.s19 one.s19
