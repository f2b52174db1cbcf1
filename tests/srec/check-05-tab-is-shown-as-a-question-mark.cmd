check tab.s19
