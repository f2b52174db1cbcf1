canon --from tape-sum apart-sum.ptp
