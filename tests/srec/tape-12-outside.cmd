check --window 0:B hello.ptp
