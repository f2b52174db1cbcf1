collect -k4 of4 -
