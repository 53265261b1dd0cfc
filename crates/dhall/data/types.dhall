{ Role = < Admin | User : Natural >, Person = { name : Text, role : < Admin | User : Natural > } }
