"""facl-audit: what is wrong with the lists of a tree, by weight, and the lines that mend it."""
