patch --symbols block.s19 --over hello.ptp --entry 5 fix.sheet
