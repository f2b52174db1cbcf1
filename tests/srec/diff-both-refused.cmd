diff sum-end.s19 equal.s19
