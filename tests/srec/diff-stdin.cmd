diff - examples/friday.srec
