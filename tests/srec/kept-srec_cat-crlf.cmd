canon kept/srec_cat-crlf.s19
