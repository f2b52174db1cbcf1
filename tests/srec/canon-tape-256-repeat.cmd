canon apart.ptp
