check block-too-many.s19
