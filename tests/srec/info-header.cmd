info d1.s19
