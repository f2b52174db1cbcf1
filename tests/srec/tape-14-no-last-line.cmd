check t14.ptp
