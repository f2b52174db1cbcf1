check kept/objcopy-symbols.s19
