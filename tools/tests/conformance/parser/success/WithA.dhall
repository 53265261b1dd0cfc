r with a.b = 1
