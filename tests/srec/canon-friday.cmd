canon examples/friday.srec
