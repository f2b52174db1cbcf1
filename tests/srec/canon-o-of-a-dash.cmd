canon -o - one.s19
