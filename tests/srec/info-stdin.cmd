info -
