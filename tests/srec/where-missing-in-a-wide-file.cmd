where far.s37 5
