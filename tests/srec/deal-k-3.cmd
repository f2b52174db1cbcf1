deal -k 3 deal.s19 chip
