canon examples/sample.canonical
