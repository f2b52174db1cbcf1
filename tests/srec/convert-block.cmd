convert --to srec block.s19
