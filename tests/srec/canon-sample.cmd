canon examples/sample.srec
