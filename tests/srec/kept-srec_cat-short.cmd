canon kept/srec_cat-short.s19
