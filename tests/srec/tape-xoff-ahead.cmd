check x-ahead.ptp
