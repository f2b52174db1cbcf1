check bom-16.s19
