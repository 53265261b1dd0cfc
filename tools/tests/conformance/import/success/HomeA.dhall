~/three.dhall
