canon -o one.s19 missing
