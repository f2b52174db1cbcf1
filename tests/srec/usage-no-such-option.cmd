check --windows 0:1 one.s19
