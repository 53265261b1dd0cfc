λ(x : Natural) → x
