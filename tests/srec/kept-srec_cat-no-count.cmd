canon kept/srec_cat-no-count.s19
