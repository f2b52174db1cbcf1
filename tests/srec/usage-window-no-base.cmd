check --window=:1 one.s19
