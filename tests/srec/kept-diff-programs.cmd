diff kept/objcopy-plain.s19 kept/srec_cat-header.s19
