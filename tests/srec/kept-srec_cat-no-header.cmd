canon kept/srec_cat-no-header.s19
