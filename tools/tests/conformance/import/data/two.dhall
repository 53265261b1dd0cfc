./one.dhall + 1
