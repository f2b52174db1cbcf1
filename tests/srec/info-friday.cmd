info examples/friday.srec
