canon -o a -o b one.s19
