λ(x : Bool) → x
