convert --to srec examples/friday.srec
