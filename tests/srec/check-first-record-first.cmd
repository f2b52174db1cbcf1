check order.s19
