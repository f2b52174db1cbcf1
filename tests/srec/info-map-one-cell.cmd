info --map top.s37
