info top.s37
