[] : List Bool
