convert --to tape -o one.s19 top.s37
