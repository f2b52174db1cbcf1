deal -k 4 deal.s19 chip
