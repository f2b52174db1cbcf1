patch --symbols block.s19 --over equal.s19 -o one.s19 fix.sheet
