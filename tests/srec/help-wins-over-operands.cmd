diff --help one.s19
