missing ? 2
