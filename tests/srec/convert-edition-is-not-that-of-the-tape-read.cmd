convert --to tape --edition sum apart-sum.ptp
