Natural/even 4
