diff same.s28 examples/friday.srec
