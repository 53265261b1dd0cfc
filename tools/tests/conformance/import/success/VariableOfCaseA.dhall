env:COLOUR as Text
