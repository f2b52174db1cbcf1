diff examples/monday.srec equal.s19
