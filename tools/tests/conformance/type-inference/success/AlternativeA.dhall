< A | B : Bool >.B
