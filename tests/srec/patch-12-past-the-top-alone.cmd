patch --symbols block.s19 --entry 0 past-the-top-alone.sheet
