check --window 0:100 block.s19
