canon kept/srec_cat-start.s19
