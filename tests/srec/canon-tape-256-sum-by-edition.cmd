canon --edition sum apart-sum.ptp
