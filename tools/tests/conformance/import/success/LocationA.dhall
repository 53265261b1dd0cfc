../data/one.dhall as Location
