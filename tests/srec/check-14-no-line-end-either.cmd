check no-end-cut.s19
