check block-value-missing.s19
