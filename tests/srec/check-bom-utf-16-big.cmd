check bom-16-be.s19
