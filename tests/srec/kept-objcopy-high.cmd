canon kept/objcopy-high.s37
