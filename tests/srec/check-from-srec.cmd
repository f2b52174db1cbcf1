check --from srec one.s19
