"two\nlines\n"
