diff --window 0:1 one.s19 nothing.s19
