merge --entry 1234 base.s19 fix.s19
