"""facl-check: whether the rules of a file hold in a snapshot."""
