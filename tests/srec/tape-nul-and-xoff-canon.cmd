canon nul.ptp
