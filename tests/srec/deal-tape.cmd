deal -k 2 hello.ptp chip
