λ(x : Type) → x
