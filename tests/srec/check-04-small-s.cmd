check small-s.s19
