merge base.s19 top.s37
