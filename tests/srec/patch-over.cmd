patch --symbols block.s19 --over block.s19 fix.sheet
