check --window=0:g one.s19
