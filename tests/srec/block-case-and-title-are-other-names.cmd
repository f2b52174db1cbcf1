check block-case.s19
