diff hello.ptp nul.ptp
