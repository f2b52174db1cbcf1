check --window 10:20 rows.s19
