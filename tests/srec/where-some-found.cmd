where examples/monday.srec 0 20 10
