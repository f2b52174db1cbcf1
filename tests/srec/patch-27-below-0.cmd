patch --symbols block.s19 --entry 0 below-0.sheet
