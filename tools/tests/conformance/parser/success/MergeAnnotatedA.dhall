merge h u : T
