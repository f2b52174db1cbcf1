check short.s19
