check t10-or-7.ptp
