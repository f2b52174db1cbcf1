check block-value-of-9-digits.s19
