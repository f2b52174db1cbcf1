check --from tape-sum --edition repeat t256-sum.ptp
