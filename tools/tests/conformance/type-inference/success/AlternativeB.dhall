∀(B : Bool) → < A | B : Bool >
