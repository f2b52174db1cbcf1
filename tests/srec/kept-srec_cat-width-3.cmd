canon kept/srec_cat-width-3.s28
