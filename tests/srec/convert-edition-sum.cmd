convert --to tape --edition sum apart.ptp
