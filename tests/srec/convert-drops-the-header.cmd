convert examples/sample.srec --to=tape
