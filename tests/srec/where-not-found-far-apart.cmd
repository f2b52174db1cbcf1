where --window FFFFFFF0:10 top.s37 FFFFFFFE
