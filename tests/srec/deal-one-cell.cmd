deal -k 4 high.s28 chip
