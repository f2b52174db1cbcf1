check block-title-missing.s19
