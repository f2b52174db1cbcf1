merge -o one.s19 base.s19 sum-end.s19
