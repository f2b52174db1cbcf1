where examples/monday.srec 20
