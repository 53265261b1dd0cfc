λ(x : Bool) → λ(y : Bool) → x
