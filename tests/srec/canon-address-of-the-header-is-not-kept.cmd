canon header-address.s19
