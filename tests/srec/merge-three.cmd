merge base.s19 fix.s19 site.s19
