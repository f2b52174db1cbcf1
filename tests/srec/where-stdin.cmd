where - 0
