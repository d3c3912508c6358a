"""facl-apply: the only command that changes the live system. It runs no program and asks no question: a plan is all that it
needs."""
