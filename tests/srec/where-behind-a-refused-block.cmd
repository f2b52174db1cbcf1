where block-bad.s19 0
