check length.s19
