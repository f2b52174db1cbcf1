check t3.ptp
