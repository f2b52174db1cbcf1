canon one.s19 rows.s19
