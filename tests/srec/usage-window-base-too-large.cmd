check --window=100000000:0 one.s19
