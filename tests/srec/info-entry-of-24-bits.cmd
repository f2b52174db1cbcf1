info entry-24.s28
