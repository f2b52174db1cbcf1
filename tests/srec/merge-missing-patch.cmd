merge base.s19 missing gone
