./a.dhall as Text
