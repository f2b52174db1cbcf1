convert --to srec --entry 0x10000 one.s19
