check s5-long.s19
