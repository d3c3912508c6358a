"""The program: how it is run and asked line by line, the language of its scripts, and how its answers are printed."""
