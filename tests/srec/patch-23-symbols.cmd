patch --symbols block-name-twice.s19 --entry 0 fix.sheet
