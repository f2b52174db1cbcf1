canon kept/srec_cat-cr.s19
