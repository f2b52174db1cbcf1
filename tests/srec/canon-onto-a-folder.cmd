canon -o examples one.s19
