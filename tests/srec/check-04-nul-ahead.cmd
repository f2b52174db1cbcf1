check nul-ahead.s19
