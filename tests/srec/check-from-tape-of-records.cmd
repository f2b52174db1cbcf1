check --from tape one.s19
