merge base.s19 high.s28
