canon entry.s37
