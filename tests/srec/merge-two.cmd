merge base.s19 fix.s19
