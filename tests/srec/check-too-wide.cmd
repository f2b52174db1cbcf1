check far.s37
