let T = ./types.dhall
in  λ(p : T.Person) →
      let tail = merge { Admin = "admin", User = λ(n : Natural) → "user ${Natural/show n}" } p.role
      in  "${p.name}: ${tail}"
