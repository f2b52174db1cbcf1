diff d2.s37 d1.s19
