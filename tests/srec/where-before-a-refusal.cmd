where where.s19 1
