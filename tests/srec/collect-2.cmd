collect -k 2 of2 out.s19
