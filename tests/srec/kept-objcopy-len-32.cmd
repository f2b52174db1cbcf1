canon kept/objcopy-len-32.s19
