check --window FFFFFFFF:2 one.s19
