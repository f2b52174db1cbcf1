check --from=srec hello.ptp
