convert --to tape --from tape-sum apart-sum.ptp
