../data/two.dhall
