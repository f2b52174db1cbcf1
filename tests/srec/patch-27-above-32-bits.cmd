patch --symbols block.s19 --entry 0 above-32-bits.sheet
