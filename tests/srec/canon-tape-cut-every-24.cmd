canon runs.ptp
