{ a : Natural, b : Text }
