check no-end-78.s37
