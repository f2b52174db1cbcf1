diff block-bad.s19 one.s19
