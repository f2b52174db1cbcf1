diff tape-none.ptp nothing.s19
