../data/cycle.dhall
