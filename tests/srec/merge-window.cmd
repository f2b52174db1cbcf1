merge --window 0:20 base.s19 fix.s19
