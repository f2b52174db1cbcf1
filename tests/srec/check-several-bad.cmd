check one.s19 sum-end.s19 rows.s19 equal.s19
