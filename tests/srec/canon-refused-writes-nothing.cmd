canon -o one.s19 equal.s19
