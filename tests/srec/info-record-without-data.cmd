info empty-record.s19
