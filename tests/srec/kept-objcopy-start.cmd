canon kept/objcopy-start.s28
