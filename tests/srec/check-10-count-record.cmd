check s5.s19
