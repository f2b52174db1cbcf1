patch --symbols block-name-underscore.s19 --entry 0 fix.sheet
