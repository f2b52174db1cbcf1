merge hello.ptp fix.ptp
