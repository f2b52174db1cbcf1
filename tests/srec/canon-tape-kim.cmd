canon kim.ptp
