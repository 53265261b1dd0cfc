let x = 1 let y : Natural = 2 in y
