check sum-0.s19
