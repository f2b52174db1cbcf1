check one.s19 - equal.s19
