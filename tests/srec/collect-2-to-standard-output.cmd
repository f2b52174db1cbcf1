collect -k2 of2 -
