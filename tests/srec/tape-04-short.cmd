check t4.ptp
