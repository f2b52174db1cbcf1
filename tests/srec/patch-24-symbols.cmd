patch --symbols block-too-many.s19 --entry 0 fix.sheet
