canon kept/srec_cat-top.s37
