"""facl-diff: who gained and lost what between two snapshots, and why."""
