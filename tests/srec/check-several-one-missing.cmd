check sum-end.s19 missing.s19 equal.s19
