deal -k 2 --window 103:4 odd.s19 old
