merge base.s19 fix.ptp
