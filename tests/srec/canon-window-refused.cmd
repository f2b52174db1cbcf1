canon --window 1:1 one.s19
