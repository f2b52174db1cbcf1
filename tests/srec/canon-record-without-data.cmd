canon empty-record.s19
