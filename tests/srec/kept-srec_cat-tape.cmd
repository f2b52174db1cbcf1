canon kept/srec_cat-tape.ptp
