check --window FFFFFFFF:1 top.s37
