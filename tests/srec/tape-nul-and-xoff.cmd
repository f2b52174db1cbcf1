check nul.ptp
