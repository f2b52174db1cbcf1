check --window=100 one.s19
