check --window=0:2F rows.s19
