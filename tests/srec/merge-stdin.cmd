merge - fix.s19
