patch --symbols block.s19 --entry 0 no-number.sheet
