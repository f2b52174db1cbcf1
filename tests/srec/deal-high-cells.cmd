deal -k 2 top.s37 chip
