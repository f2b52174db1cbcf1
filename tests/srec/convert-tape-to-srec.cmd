convert --to srec --entry 200 hello.ptp
