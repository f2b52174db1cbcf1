check one.s19 -- --window 0:1
