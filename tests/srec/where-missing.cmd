where missing 0
