check twice.s19
