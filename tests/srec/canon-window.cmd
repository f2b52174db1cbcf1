canon --window 0:1 one.s19
