info --map examples/sample.srec
