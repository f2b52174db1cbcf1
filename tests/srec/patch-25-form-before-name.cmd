patch --symbols block.s19 --entry 0 form-before-name.sheet
