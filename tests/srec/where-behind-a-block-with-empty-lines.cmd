where block-late.s19 0
