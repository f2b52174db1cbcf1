check examples/lost-bit.srec
