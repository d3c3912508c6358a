"""A plan: the folder that facl-plan writes and facl-apply reads, its files, and what differs between two records of a file.
Below both commands, it needs nothing but base."""
