λ(_ : Type) → _
