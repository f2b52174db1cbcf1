check t256-sum.ptp
