convert --to tape hello.s19
