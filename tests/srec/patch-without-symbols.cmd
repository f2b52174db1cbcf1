patch fix.sheet
