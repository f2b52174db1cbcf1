diff kept/srec_cat-short.s19 kept/srec_cat-long.s19
