patch --symbols block.s19 --entry 0 name-before-sum.sheet
