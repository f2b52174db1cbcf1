patch --symbols block.s19 --entry 0 tag-alone.sheet
