< Environment : Text | Local : Text | Missing | Remote : Text >.Local "../data/one.dhall"
