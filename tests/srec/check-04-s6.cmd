check s6.s19
