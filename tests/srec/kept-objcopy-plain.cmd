canon kept/objcopy-plain.s19
