check no-end-blank.s19
