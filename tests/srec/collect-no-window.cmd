collect -k 2 --window 0:1 of2 out
