deal -k 2 nothing.s19 chip
