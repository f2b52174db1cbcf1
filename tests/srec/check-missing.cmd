check missing.s19
