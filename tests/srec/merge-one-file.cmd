merge base.s19
