diff equal.s19 equal.s19
