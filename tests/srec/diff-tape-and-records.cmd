diff hello.ptp hello.s19
