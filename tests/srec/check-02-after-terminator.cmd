check after.s19
