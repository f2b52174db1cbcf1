check bom-sum.s19
