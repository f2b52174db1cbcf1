where mixed-bad.s19 1 2
