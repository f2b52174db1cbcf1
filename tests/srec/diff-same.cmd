diff examples/monday.srec examples/monday.srec
