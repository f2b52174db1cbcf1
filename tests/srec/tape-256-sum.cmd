check --edition sum t256-sum.ptp
