toMap { a = 1 }
