check three.s37
