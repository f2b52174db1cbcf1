check cr-bad.s19
