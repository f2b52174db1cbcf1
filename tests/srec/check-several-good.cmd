check one.s19 rows.s19 examples/monday.srec examples/friday.srec examples/sample.srec
