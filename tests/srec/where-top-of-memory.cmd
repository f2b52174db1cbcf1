where top.s37 FFFFFFFF
