check sum.s19
