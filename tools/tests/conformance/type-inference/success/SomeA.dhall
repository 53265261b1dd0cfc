Some 1
