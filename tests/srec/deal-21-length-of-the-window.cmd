deal -k 4 --window 100:6 odd.s19 old
