diff --window 1:1 one.s19 nothing.s19
