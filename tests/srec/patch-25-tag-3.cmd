patch --symbols block.s19 --entry 0 tag-3.sheet
