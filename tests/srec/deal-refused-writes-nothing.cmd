deal -k 2 equal.s19 old
