{ a : Bool, a : Bool }
