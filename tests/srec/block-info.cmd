info block.s19
