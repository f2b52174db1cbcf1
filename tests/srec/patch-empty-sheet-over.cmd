patch --symbols block.s19 --over base.s19 none.sheet
