canon top.s37
