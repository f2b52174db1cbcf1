patch --symbols block.s19
