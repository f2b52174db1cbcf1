patch --help
