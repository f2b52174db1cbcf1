convert --to srec --entry 0 -
