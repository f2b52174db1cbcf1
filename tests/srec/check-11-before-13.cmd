check order-11-13.s19
