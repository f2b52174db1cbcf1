check no-end-80.s37
