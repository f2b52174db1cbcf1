where overlap.s19 0 1 2 3
