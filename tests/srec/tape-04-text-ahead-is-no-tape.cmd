check t4-text.ptp
