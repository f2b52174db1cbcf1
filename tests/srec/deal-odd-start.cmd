deal -k 2 odd.s19 chip
