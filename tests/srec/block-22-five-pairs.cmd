check block-five-pairs.s19
