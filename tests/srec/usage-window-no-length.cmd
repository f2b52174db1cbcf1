check --window=0: one.s19
