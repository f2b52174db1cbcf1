info runs.ptp
