check indented.s19
