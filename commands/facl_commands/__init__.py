"""What the commands share. It needs Python 3.9 or later and its standard library; the prompt of facl-ask takes
prompt_toolkit too."""

VERSION = "0"  # Of a clone; a package has its own.
