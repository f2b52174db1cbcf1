check --from tape t4-text.ptp
