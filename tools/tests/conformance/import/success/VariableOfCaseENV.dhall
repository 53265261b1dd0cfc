[ { mapKey = "COLOUR", mapValue = "red" } ]
