where --help
