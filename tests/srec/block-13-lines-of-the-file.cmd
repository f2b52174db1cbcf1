check block-twice.s19
