check block-last-line-missing.s19
