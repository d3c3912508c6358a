"""facl-daily: a snapshot each day, kept in a folder, and what is to look at, by the other commands, which it starts."""
