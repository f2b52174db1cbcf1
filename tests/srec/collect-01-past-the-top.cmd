collect -k 2 past one.s19
