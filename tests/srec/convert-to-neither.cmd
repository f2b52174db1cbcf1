convert --to hex one.s19
