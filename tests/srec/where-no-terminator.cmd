where no-end.s19 0
