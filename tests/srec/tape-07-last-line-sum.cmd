check --edition sum t7-last.ptp
