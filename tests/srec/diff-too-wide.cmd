diff far.s37 nothing.s19
