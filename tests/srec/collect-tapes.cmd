collect -k 2 tape -
