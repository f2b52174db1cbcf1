merge -o one.s19 equal.s19 fix.s19
