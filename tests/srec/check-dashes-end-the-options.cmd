check -- -dash.s19 -
