canon examples/monday.srec
