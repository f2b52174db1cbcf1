check block.s19
