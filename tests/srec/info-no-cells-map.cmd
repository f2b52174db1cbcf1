info --map nothing.s19
