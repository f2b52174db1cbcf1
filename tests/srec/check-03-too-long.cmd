check long.s19
