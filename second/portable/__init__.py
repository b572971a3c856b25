"""The portable test vectors, by the rules: a module for each file of vectors/."""
