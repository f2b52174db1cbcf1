collect of2 out
