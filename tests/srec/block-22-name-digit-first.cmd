check block-name-digit-first.s19
