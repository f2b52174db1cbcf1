check no-bytes.s19
