check bom.s19
