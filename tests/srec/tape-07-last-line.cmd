check t7-last.ptp
