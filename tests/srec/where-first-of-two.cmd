where examples/lost-bit.srec 0
