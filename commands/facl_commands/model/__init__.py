"""What is in a snapshot: its texts, records, entries, users and groups, and the rights that the program grants by them.
Commands of several packages share it."""
