patch --symbols block.s19 --entry 0 empty-address-alone.sheet
