https://dhall.invalid/a.dhall
