check block-name-of-17.s19
