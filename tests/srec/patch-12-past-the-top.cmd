patch --symbols block.s19 --entry 0 --window FFFFFFFF:1 past-the-top.sheet
