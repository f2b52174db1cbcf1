canon examples/friday.srec -oout.s19
