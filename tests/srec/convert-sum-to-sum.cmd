convert --to tape --from tape-sum --edition sum apart-sum.ptp
