diff examples/monday.srec examples/friday.srec
