check --from tape-sum t256-sum.ptp
