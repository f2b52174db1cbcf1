merge block.s19 fix.s19
