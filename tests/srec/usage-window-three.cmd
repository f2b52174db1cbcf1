check --window=0:1:2 one.s19
