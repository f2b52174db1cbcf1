check 'a name'
