"""facl-ask over several snapshots of one tree, and on several servers: each answers the script, and the answers are
joined."""

SECONDS = 600  # That another machine has for its answers.
