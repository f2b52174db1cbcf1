check hello.ptp kim.ptp
