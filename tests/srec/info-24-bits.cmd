info wide.s28
