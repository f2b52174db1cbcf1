canon -
