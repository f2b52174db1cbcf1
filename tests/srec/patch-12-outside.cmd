patch --symbols block.s19 --entry 0 --window 1F00:1 outside.sheet
