check nul-bad.ptp
