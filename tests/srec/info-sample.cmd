info examples/sample.srec
