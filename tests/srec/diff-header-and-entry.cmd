diff examples/sample.srec sample-bare.s19
