check line-ends-only.s19
