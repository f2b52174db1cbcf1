deal -k 2 - chip
