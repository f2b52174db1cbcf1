canon --help
