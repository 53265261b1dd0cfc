λ(a : Type) → λ(x : a) → x
