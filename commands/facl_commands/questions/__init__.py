"""The commands that answer a question over snapshots and change nothing, a package for each."""
