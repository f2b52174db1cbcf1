check t13.ptp
