check --from symbols one.s19
