"ab"
