deal -k 2 --window 0:10000 deal.s19 chip
