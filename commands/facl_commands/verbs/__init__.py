"""facl VERB: the front of all commands. `table.py` has a row for each verb."""
