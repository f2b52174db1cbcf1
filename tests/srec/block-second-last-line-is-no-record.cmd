check block-dollars.s19
