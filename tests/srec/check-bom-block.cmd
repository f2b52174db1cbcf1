check --from symbols bom-block.s19
