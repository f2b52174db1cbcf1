check --window=-1:5 one.s19
