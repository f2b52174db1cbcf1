canon widths.s37
