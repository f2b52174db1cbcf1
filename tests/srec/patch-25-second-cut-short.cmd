patch --symbols block.s19 --entry 0 second-cut-short.sheet
