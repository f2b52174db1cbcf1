check longest.s19
