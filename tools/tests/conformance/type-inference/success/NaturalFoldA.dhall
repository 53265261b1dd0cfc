Natural/fold
