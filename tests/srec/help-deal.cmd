deal --help
