collect -k 2 bad one.s19
