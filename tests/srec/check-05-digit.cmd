check digit.s19
