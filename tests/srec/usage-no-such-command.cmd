chekc one.s19
