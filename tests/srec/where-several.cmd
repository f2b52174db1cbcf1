where examples/friday.srec 104 0x1f 0X0 0000000018
