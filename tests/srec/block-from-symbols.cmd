check --from symbols block.s19
