List Bool
