canon unaligned.s19
