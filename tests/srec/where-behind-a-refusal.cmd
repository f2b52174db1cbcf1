where where.s19 0 3
