env:DHALL_TEST_VAR as Text
