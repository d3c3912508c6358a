"""facl-plan: what edits do, line by line, with what the program has not: hard links, chown, and steps by hand."""
