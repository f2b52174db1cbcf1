info entry.s37
