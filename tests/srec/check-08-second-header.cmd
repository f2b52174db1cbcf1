check headers.s19
