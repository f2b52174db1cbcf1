check e9.s19
