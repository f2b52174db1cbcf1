canon hello.ptp
