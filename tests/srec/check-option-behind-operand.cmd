check rows.s19 --window 0:1
