check --edition other one.s19
