check sum-end.s19
