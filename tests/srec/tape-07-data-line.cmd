check t7.ptp
