check block-name-underscore.s19
