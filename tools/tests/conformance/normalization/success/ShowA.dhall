Text/show "a\n"
