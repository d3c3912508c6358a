"""Jobs of a week as edits of a plan: what a person would write line by line."""
