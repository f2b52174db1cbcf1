deal -k 2 deal.s19 no/chip
