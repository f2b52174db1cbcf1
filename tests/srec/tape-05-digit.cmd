check t5.ptp
