λ(x : Natural) → x + 0
