check kept/srec_cat-data-only.s19
