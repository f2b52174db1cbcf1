info examples/monday.srec
