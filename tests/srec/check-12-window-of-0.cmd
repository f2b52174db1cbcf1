check --window 0:0 rows.s19
