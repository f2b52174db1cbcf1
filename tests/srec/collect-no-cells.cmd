collect -k 2 none -
