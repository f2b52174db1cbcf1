canon -o out.s19 examples/friday.srec
