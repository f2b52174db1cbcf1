info --edition sum hello.ptp
