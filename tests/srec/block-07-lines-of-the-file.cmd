check block-sum.s19
