canon -o no/out.s19 one.s19
