check --from hex one.s19
