canon header-252.s19
