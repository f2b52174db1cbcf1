where far.s37 0 ffffffff
