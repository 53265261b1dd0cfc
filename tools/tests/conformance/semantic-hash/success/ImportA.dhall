../../import/data/two.dhall
