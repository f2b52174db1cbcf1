check --from srec block.s19
