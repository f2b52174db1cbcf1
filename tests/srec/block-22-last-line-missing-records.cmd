check block-last-line-missing-records.s19
