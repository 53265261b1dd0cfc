∀(x : Bool) → Bool
