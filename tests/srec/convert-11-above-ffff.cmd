convert --to tape wide.s28
