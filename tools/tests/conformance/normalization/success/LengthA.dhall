List/length Natural [ 1, 2 ]
