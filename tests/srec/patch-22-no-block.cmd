patch --symbols one.s19 --entry 0 fix.sheet
