check no-end.s19
