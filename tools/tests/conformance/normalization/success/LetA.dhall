let x = 1 let y = x in y + x
