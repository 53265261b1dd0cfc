../data/one.dhall
