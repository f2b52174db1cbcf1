check t2.ptp
