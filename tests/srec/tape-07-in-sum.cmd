check --edition=sum t10-or-7.ptp
