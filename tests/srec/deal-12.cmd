deal -k 2 --window 104:4 odd.s19 old
