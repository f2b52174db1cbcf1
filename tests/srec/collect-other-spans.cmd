collect -k 2 span -
