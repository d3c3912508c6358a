"""What the commands and the program say to each other: the texts that the commands look for in its messages and
listings, and the lines that they ask it, each once."""
from __future__ import annotations

import functools
from typing import List

# --- statuses of the program; facl-ask ends with them too

ANSWERED, REFUSED = 0, 1  # 1: some line was refused.

# --- messages, `line N: TOOL: TEXT`, which the program prints for refused lines (facl_output/src/message.rt)

IN_LINE = b"line %d: "  # The beginning of each.
PROGRAM = b"facl"  # In the place of TOOL, where the fault is found before the tool reads its words.
# Texts of the line as such, by the program.
NOT_UTF8, OPEN_QUOTE = b"not UTF-8", b"open quote"
UNKNOWN_TOOL, TEXT_WITHOUT_END = b"unknown tool", b"text without end"
# By any tool.
USAGE, BAD_PATH = b"usage", b"bad path"
NO_FILE, NO_USER, NO_GROUP = b"no such file", b"no such user", b"no such group"
TOO_MANY_FILES = b"too many files"
# By setfacl and chacl, of entries and lists.
BAD_TAG, BAD_PERMISSIONS, NO_PERMISSIONS = b"bad tag", b"bad permissions", b"permissions missing"
UNKNOWN_USER, UNKNOWN_GROUP = b"unknown user", b"unknown group"
UNWANTED_PERMISSIONS, BASE_MISSING = b"permissions not wanted", b"(user|group|other):: missing"
ONLY_DIRECTORIES = b"only directories have default lists"
IS_DIRECTORY = b"is a directory"  # By rm.
# By setfacl -d: the one message of a line that is accepted.
WARNING = b"setfacl: warning: default entries dropped"
SETUP = b"facl: setup: "  # By the program, which ends then (run_fault.rt): a text that it does not load.

# --- patterns of messages, without `line N: `

ANY_TOOL = rb"[a-z]+"


def by(tool: bytes, *texts: bytes, before: bytes = b"") -> bytes:
    """Messages of a tool that have one of these texts, after a pattern."""
    return tool + b": " + before + b"(?:" + b"|".join(texts) + b")"


of_name = functools.partial(by, before=rb".*: ")  # Those that have a name before their text.
of_entry = functools.partial(by, before=rb"(?:default )?entry \d+: ")  # Those of an entry of a line.
of_list = functools.partial(by, ANY_TOOL, before=rb"(?:.*: )?(?:access|default) list: ")  # Those of a whole list.

# --- single messages


def is_refused(messages: List[bytes]) -> bool:
    """Whether a line with these messages is refused."""
    return any(message != WARNING for message in messages)


def has_text(message: bytes, text: bytes) -> bool:
    """Whether this is the last part of a message."""
    return message.endswith(b": " + text)


def lacks_file(messages: List[bytes]) -> bool:
    """Whether a line is refused since a file is not there."""
    return messages[:1] != [] and has_text(messages[0], NO_FILE)


def lacking_file(message: bytes) -> bytes:
    """The name of the file that is not there, as it is printed."""
    return message.partition(b": ")[2][: -len(b": " + NO_FILE)]


def message_of(tool: bytes, text: bytes) -> bytes:
    """A message of our own in the program's form."""
    return tool + b": " + text


# --- listings: by getfacl, `why` and `attr` of the program (acl_text/src/dump_writing.rt), and by facl-snapshot in dumps

FILE_HEAD, OWNER_HEAD, GROUP_HEAD, FLAGS_HEAD = b"# file: ", b"# owner: ", b"# group: ", b"# flags: "
FILE_LINE = rb"^# file: (.*)$"  # A pattern; with re.MULTILINE.
# As any getfacl may write it, and a person.
FREE_FILE_LINE = rb"[ \t]*#[ \t]*file:[ ]?(.*)"
DEFAULT_ENTRY = b"\ndefault:"  # In the record of a directory.
OWNER_ENTRY, EMPTY_MASK = b"\nuser::", b"\nmask::---\n"
# Patterns of lines of records; with re.MULTILINE.
OPEN_OTHERS_LINE = rb"^other::(?!---)"
NAMED_LINE = rb"^(?:user|group):[^:\n]+:"
USER_ID_LINE = rb"^(?:# owner: |(?:default:)?user:)([0-9]+)(?:$|:)"
GROUP_ID_LINE = rb"^(?:# group: |(?:default:)?group:)([0-9]+)(?:$|:)"
ATTRIBUTE_LINES = (rb"system\.posix_acl_access=0x((?:[0-9a-f]{2})+)\n"
                   rb"(?:system\.posix_acl_default=0x((?:[0-9a-f]{2})+)\n)?\n")  # By `attr`.
EFFECTIVE = b"#effective:"  # After an entry that the mask cuts.

# --- lines that the commands ask

LIST, LIST_NUMBERS, LIST_ALL = b"getfacl --", b"getfacl -n -E --", b"getfacl -n -E -R --"
LIST_NAMES = b"getfacl -E --"
# With what the mask leaves of each entry that it cuts.
LIST_EFFECTIVE, LIST_CUT, LIST_NAMED = b"getfacl -n -R --", b"getfacl -n --", b"getfacl --"
LIST_BELOW = b"getfacl -R --"
RESTORE = b"setfacl --restore=-"  # The records are its text.
SET_LIST = b"setfacl -n --set=%s --"
SET_DEFAULT = b"setfacl --test -m d:u::rwx --"  # Whether a file is taken for a directory.
ENTRIES_OF, INDEX, ATTRIBUTES_OF = b"why --", b"index", b"attr %d"
GAINS, GAINS_ALONG_PATHS, CHANGES = b"gains", b"gains --reach", b"changes"
NOT_THERE = b"--"  # Of a user or a file, in a line of their answer.
BELOW, MAY, CAN, WHO = b"below", b"may", b"can", b"who"
ALL_OF = b"may -- %s 0"  # All files: each alone grants any user the request for nothing.
MAKE_FILE = b"creat --user=%s --mode=%s --umask=%s --"
MAKE_DIRECTORY = b"creat -d --user=%s --mode=%s --umask=%s --"
ADD_USER_WITH = b"useradd -u %d -g %s -- %s"
ENTRIES_ALONG_PATH = b"why --reach --"
# A line of a word that nobody can guess, and its refusal, which shows that all lines before it are answered.
PROBE, PROBE_REFUSED = b"getfacl %s", b"getfacl: %s: " + NO_FILE
