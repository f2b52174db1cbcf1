check mixed-bad.s19
