canon kept/srec_cat-long.s19
