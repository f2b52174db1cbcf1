canon kept/srec_cat-width-4.s37
