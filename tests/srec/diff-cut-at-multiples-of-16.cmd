diff block16.s19 nothing.s19
