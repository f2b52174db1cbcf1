patch --symbols block-alone.s19 --entry 0 fix.sheet
