check block-alone.s19
