merge base.s19 base.s19
