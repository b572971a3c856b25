"""The rules of Cinchcleat, docs/RULES.md, once more, in standard-library Python: a module for a section. They share no code with the crates."""
