check block-name-twice.s19
