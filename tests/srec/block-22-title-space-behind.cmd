check block-title-space-behind.s19
