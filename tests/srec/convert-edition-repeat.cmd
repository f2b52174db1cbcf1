convert --to tape --from tape-sum --edition repeat apart-sum.ptp
