canon tape-none.ptp
