where block.s19 1f02 100
