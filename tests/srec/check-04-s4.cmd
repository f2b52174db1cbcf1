check s4.s19
