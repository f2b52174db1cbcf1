patch --symbols block.s19 --entry 0 no-text-at-all.sheet
