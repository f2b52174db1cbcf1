check --window 12345678:2 s3-outside.s37
