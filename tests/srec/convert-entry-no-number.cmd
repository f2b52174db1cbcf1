convert --to srec --entry 1g one.s19
