convert --to srec --edition sum --entry 0 apart-sum.ptp
