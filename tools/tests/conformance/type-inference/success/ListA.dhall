[ True ]
