check t6.ptp
