convert --to tape --entry 0 one.s19
