../data/ill.dhall
