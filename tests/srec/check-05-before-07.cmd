check order-5-7.s19
