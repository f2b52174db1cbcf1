canon kept/objcopy-force-s3.s37
