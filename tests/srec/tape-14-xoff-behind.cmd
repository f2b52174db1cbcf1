check t14-xoff.ptp
