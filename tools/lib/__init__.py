"""What several scripts share. Once one of its modules is imported, those of commands/ and commands/tests can be imported too:
their folders are added to the path here alone."""
import os
import sys

COMMANDS = os.path.join(os.path.dirname(os.path.realpath(__file__)), "..", "..", "commands")
sys.path += [COMMANDS, os.path.join(COMMANDS, "tests")]
