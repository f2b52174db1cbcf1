check space.s19
