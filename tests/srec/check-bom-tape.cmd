check bom.ptp
