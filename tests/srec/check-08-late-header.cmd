check header.s19
