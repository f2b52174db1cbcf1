patch --symbols block.s19 -o one.s19 fix.sheet
