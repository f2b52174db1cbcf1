check crlf-bad.s19
