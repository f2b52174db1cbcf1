info --map examples/monday.srec
