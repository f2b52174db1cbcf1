check t3-longest.ptp
