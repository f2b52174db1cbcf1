check --from tape --edition sum t256-sum.ptp
