diff d1.s19 d2.s37
