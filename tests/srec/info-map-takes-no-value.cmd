info --map=1 one.s19
