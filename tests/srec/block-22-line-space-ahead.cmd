check block-line-space-ahead.s19
