deal deal.s19 chip
