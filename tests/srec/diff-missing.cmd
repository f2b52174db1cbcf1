diff one.s19 missing
