merge --entry 0 hello.ptp fix.ptp
