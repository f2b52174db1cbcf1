check t10.ptp
