< A | B : Bool >
