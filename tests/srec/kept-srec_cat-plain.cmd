check kept/srec_cat-plain.s19
