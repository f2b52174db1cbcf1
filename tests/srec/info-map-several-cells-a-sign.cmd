info --map map.s28
