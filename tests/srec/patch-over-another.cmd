patch --symbols=block.s19 --over=base.s19 fix.sheet -o out.s19
