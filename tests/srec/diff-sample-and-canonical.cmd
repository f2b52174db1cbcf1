diff examples/sample.srec examples/sample.canonical
