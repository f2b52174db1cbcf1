check ends.s19
