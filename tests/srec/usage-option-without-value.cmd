check one.s19 --window
