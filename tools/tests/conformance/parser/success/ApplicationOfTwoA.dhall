f x y
