canon block.s19
