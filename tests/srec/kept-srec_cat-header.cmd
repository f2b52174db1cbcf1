canon kept/srec_cat-header.s19
