merge base.s19 site.s19 fix.s19
