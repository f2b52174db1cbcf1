patch --symbols block.s19 --over base.s19 --entry 5 fix.sheet
