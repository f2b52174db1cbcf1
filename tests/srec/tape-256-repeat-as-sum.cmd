check --edition sum kept/srec_cat-tape-256.ptp
