merge { A = 1, B = λ(b : Bool) → 2 } (< A | B : Bool >.B True)
