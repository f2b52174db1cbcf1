check past-24.s28
