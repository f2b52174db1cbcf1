collect -k 4 of4 out.s19
