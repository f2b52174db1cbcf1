check -o out one.s19
