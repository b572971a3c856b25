"""What the crates' programs must write, by the rules: a module for each program."""
