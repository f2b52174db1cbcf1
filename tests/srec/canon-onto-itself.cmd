canon -o long-rows.s19 long-rows.s19
