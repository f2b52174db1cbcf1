check --window 11:100 rows.s19
