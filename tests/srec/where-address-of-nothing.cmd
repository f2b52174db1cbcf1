where one.s19 ''
