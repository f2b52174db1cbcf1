merge -o base.s19 base.s19 fix.s19
