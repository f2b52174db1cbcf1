check kept/srec_cat-tape-256.ptp
