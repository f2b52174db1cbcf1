check -dash.s19
