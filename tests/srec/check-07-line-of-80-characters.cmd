check sum-80.s37
