check kept/srec_cat-no-terminator.s19
