convert --to tape equal.s19
