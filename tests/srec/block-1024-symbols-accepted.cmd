check block-1024.s19
