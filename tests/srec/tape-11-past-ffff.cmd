check t11.ptp
