collect -k 4 of2 one.s19
