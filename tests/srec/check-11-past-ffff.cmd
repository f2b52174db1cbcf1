check past.s19
