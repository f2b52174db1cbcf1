convert --to srec --entry 100000000 one.s19
