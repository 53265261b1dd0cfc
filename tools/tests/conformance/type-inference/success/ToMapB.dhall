List { mapKey : Text, mapValue : Natural }
