check s9-data.s19
