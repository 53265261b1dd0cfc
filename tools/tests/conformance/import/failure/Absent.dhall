../data/none.dhall
