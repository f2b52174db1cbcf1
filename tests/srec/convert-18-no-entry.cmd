convert --to srec -o one.s19 hello.ptp
