where nul.ptp 4
