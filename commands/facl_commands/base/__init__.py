"""What each command needs of Python and of Linux: messages, names, trusted and new files, the bytes of lists, tables.
Nothing here knows the program, a snapshot or another package."""
