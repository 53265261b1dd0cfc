"a${x}b"
