canon wide.s28
