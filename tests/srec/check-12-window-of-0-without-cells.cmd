check --window 0:0 nothing.s19
