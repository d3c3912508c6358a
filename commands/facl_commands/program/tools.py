"""The tools of the script language, one record each; and how the words of a line are split into options and operands.

All other modules make what they know of tools from these; tools/checks/tool_rows.py compares them with the program's
definitions.
"""
from __future__ import annotations

import re
from typing import FrozenSet, Iterable, List, NamedTuple, Optional, Tuple

# What a line of a tool does.
QUESTION, EDIT, PEOPLE, LOAD, OF_PLANS = "question", "edit", "people", "load", "of plans"
# Kinds of words; the value of an option of the kind TEXT is -, and the lines after the line are its text.
FILE, USER, GROUP, ENTRIES, TEXT, OTHER = "file", "user", "group", "entries", "text", "other"
# By the names of operands; those of others are OTHER.
KINDS = {"FILE": FILE, "USER": USER, "GROUP": GROUP, "LIST": ENTRIES}
# What an option means for its line.
DEEP = "deep"  # It goes to all files below.
LOOK = "look"  # It prints what it would do, or what is there, and changes nothing.
RECORDS = "records"  # It gives the records of files.
FILE_RECORDS = "# file: PATH"  # The form of answers that have a record of some lines for each file.
MAKES, REMOVES = "makes", "removes"  # What a tool does with its FILEs.
REACH = b"--reach"  # Search on the directories above counts too.
FIRST_FILES = b"--list"  # How many files are printed, and no counts.
BY_FOLDER = b"--depth"  # Counts folder by folder.
TEST = b"--test"  # The lists that would result are printed.


class OptionRow(NamedTuple):
    names: Tuple[bytes, ...]  # The short one first.
    value: str  # The kind of its value, or nothing where it takes none.
    meaning: str


def option(names: str, value: str = "", meaning: str = "") -> OptionRow:
    return OptionRow(tuple(names.encode().split(b" ")), value, meaning)


class Tool(NamedTuple):
    name: bytes
    kind: str
    operands: str  # As the synopsis has them, `..` after one that may be there several times.
    options: Tuple[OptionRow, ...] = ()
    # The form of each line of its answer, where it is about a user or a file: their names are USER and PATH in it.
    prints: str = ""
    empty: bytes = b""  # What is shown of an answer that has nothing.
    takes_text: bool = False  # Whether each of its lines takes a text.
    is_request: bool = False  # Whether it asks what is granted; a person is told then what --reach would do.
    files: str = ""  # Whether it makes or removes its FILEs.
    other_operands: Tuple[Tuple[str, str], ...] = ()  # Those of lines with one of some options; the first pair counts.
    others: str = ""  # Options of the system's tool that have values, and are none here.
    harmless: str = ""  # Options of the system's tool without which a line does the same here.
    other_forms: Tuple[Tuple[str, bytes], ...] = ()  # Of lines with one of some options the tool whose answers theirs are like.


BY_REACH = (option("--reach"),)
RECURSIVE = option("-R --recursive", meaning=DEEP)
SAYING_MORE = "-v -c -f --verbose --changes --silent --quiet"
OF_OWNERS = SAYING_MORE + " -h -P --no-dereference --preserve-root"  # Symbolic links are not recorded.
ROWS = (
    Tool(b"can", QUESTION, "USER FILE", BY_REACH, is_request=True),
    Tool(b"who", QUESTION, "PERMS FILE", BY_REACH, "USER", b"(nobody)\n", is_request=True),
    Tool(b"may", QUESTION, "USER PERMS", BY_REACH, "PATH", b"(nothing)\n", is_request=True),
    Tool(b"below", QUESTION, "PERMS FILE..",
         (*BY_REACH, option("--plain"), option("--directories"), option("--user", USER), option("--list", OTHER),
          option("--depth", OTHER)),
         "COUNT USER PATH", b"(nobody)\n", is_request=True, other_forms=(("--list", b"may"),)),
    Tool(b"why", QUESTION, "USER FILE..", BY_REACH, FILE_RECORDS),
    Tool(b"changes", QUESTION, "", BY_REACH, "USER HOW REQUESTS PATH", b"(nothing)\n"),
    Tool(b"gains", QUESTION, "", BY_REACH, "BEFORE AFTER COUNT USER PATH", b"(nothing)\n"),
    Tool(b"index", QUESTION, "", (), "RIGHTS USER PATH", b"(nothing)\n"),
    Tool(
        b"getfacl", QUESTION, "FILE..",
        (option("-a --access"), option("-c --omit-header"), option("-e --all-effective"), option("-E --no-effective"),
         option("-s --skip-base"), RECURSIVE, option("-n --numeric")),
        FILE_RECORDS, b"(nothing)\n", harmless="-p -t -L -P --absolute-names --tabular --logical --physical",
    ),
    Tool(
        b"setfacl", EDIT, "FILE..",
        (option("-b --remove-all"), option("-k --remove-default"), option("-x --remove", ENTRIES),
         option("-X --remove-file", TEXT), option("-m --modify", ENTRIES), option("-M --modify-file", TEXT),
         option("-n --no-mask"), option("--mask"), option("-d --default"), RECURSIVE, option("--set", ENTRIES),
         option("--set-file", TEXT), option("--restore", TEXT, RECORDS), option("--test", "", LOOK)),
        "PATH: LISTS", harmless="-L -P --logical --physical",
    ),
    Tool(
        b"chacl", EDIT, "LIST FILE..",
        (option("-b"), option("-B"), option("-d"), option("-D"), option("-l", "", LOOK), option("-r", "", DEEP), option("-R")),
        "PATH [LISTS]", other_operands=(("-R -D -B -l", "FILE.."), ("-b", "LIST LIST FILE..")),
    ),
    Tool(b"chmod", EDIT, "MODE FILE..", (option("-R", "", DEEP),), others="--reference", harmless=SAYING_MORE),
    Tool(b"creat", EDIT, "FILE",
         (option("-d"), option("--user", USER), option("--mode", OTHER), option("--umask", OTHER)), files=MAKES),
    Tool(b"rm", EDIT, "FILE..", (option("-r", "", DEEP),), files=REMOVES, harmless="-f -i -I -v --force"),
    Tool(b"attr", QUESTION, "FILE", (), FILE_RECORDS),
    Tool(b"setattr", EDIT, "BYTES FILE"),
    Tool(b"gpasswd", PEOPLE, "GROUP", (option("-a", USER), option("-d", USER)), others="-M -A"),
    Tool(b"usermod", PEOPLE, "USER", (option("-g", GROUP),), others="-G -u -s -d -l -c -e"),
    Tool(b"useradd", PEOPLE, "NAME", (option("-g", GROUP), option("-u", OTHER)), others="-G -s -d -c -e -k -p"),
    Tool(b"userdel", PEOPLE, "USER", harmless="-r -f --remove --force"),
    Tool(b"load", LOAD, "TABLE", takes_text=True),
    # In scripts of facl-plan alone.
    Tool(b"chown", OF_PLANS, "USER FILE..", (RECURSIVE,), others="--from --reference", harmless=OF_OWNERS),
    Tool(b"chgrp", OF_PLANS, "GROUP FILE..", (RECURSIVE,), others="--reference", harmless=OF_OWNERS),
)
ALL = {tool.name: tool for tool in ROWS}


# --- tables made of the records


def names_in(text: str) -> FrozenSet[bytes]:
    return frozenset(text.encode().split())


def of_kind(*kinds: str) -> Tuple[bytes, ...]:
    return tuple(tool.name for tool in ROWS if tool.kind in kinds)


def options_that(tool: bytes, *meanings: str) -> FrozenSet[bytes]:
    """The names of a tool's options that have one of these meanings."""
    return frozenset(name for row in options_in(tool) for name in row.names if row.meaning in meanings)


def options_with(tool: bytes, *kinds: str) -> FrozenSet[bytes]:
    """The names of a tool's options whose values are of one of these kinds."""
    return frozenset(name for row in options_in(tool) for name in row.names if row.value in kinds)


def options_in(tool: bytes) -> Tuple[OptionRow, ...]:
    return ALL[tool].options if tool in ALL else ()


def letters_of(names: Iterable[bytes]) -> bytes:
    """The letters of the short names among these."""
    return b"".join(sorted(name[1:] for name in names if len(name) == 2))


EDITS, CHANGES_OF_PEOPLE = of_kind(EDIT), of_kind(PEOPLE)
QUESTIONS, TOOLS_OF_PLANS = of_kind(QUESTION), of_kind(OF_PLANS)
IN_SCRIPTS = tuple(tool for tool in ROWS if tool.kind != OF_PLANS)
TOOLS = tuple(tool.name for tool in IN_SCRIPTS)
# They look at files that their words name.
WITH_FILES = tuple(tool.name for tool in IN_SCRIPTS if "FILE" in tool.operands)
# The names of users are in their answers; their answers count files.
ABOUT_USERS, COUNTING = (tuple(tool.name for tool in IN_SCRIPTS if it in tool.prints.split()) for it in ("USER", "COUNT"))
# Their answers go by files, and of each file by users.
BY_FILES = tuple(name for name in ABOUT_USERS if "PATH" in ALL[name].prints.split() and name not in COUNTING)
# They are about one user, who is their first operand.
ABOUT_ONE = tuple(name for name in QUESTIONS if ALL[name].operands.startswith("USER "))
OF_RECORDS = tuple(tool.name for tool in IN_SCRIPTS if tool.prints == FILE_RECORDS)
REQUESTS = tuple(tool.name for tool in IN_SCRIPTS if tool.is_request)
MAKERS, REMOVERS = (tuple(tool.name for tool in IN_SCRIPTS if tool.files == how) for how in (MAKES, REMOVES))
LOADERS = tuple(tool.name for tool in IN_SCRIPTS if tool.takes_text)
EMPTY_ANSWERS = {tool.name: tool.empty for tool in ROWS if tool.empty}
OPTIONS = {tool.name: frozenset(it for row in tool.options for it in row.names) for tool in ROWS}
VALUES = {tool.name: {it: row.value for row in tool.options if row.value for it in row.names} for tool in ROWS}
HARMLESS = {tool.name: names_in(tool.harmless) for tool in ROWS}
# How words by which a line gives the records of files begin.
RESTORING = tuple(sorted(name for tool in ALL for name in options_that(tool, RECORDS)))
# Words by which a line takes a text.
TEXT_WORDS = {b"-"} | {name + (b"=-" if len(name) > 2 else b"-") for tool in ALL for name in options_with(tool, TEXT)}


def operands_of(tool: bytes, line: Split) -> List[str]:
    """The names of the operands of a line; the last is that of all that follow."""
    if tool not in ALL:
        return []
    others = (names for options, names in ALL[tool].other_operands if line.has(*names_in(options)))
    return next(others, ALL[tool].operands).replace("..", "").split()


def form_of(words: List[bytes]) -> bytes:
    """The tool that has answers of the form of a line's answer."""
    tool = words[0] if words else b""
    forms = ALL[tool].other_forms if tool in ALL else ()
    return next((form for options, form in forms if split(words).has(*names_in(options))), tool)


def operand_kinds(tool: bytes, line: Split) -> List[str]:
    """What the operands of a line are, the last for all that follow."""
    return [KINDS.get(word, OTHER) for word in operands_of(tool, line)]


def user_in(tool: bytes, line: bytes) -> bytes:
    """The name of the user in a line of a tool's answer."""
    place = ALL[tool].prints.split().index("USER")
    return line.split(b" ", place + 1)[place]


def path_in(tool: bytes, line: bytes) -> bytes:
    """The name of the file in a line of a tool's answer, up to what its form has after it."""
    before, _, after = ALL[tool].prints.partition("PATH")
    name = line.split(b" ", before.count(" "))[-1]
    end = re.match("[^A-Z]*", after)
    return name.rpartition(end[0].encode())[0] if end and end[0] else name


def options_of_tool(tool: bytes) -> List[bytes]:
    """Short options first, by their letters, a small one before the capital one."""
    return sorted(OPTIONS.get(tool, ()), key=lambda name: (len(name) > 2, name.lower(), name.swapcase()))


# --- the words of a line


class Option(NamedTuple):
    name: bytes  # A short one for each letter of a word.
    value: bytes


class Split(NamedTuple):
    """The words after a tool."""

    given: List[Option]
    operands: List[bytes]  # Those that are neither options nor values.

    def value(self, *names: bytes) -> bytes:
        """The value of the first of these options."""
        return next((option.value for option in self.given if option.name in names), b"")

    def has(self, *names: bytes) -> bool:
        return any(option.name in names for option in self.given)


def split(words: List[bytes]) -> Split:
    """The words of a line, of which the first is the tool."""
    found = Split([], [])
    tool, rest = (words[0], words[:0:-1]) if words else (b"", [])
    values = names_in(ALL[tool].others).union(VALUES[tool]) if tool in ALL else frozenset()
    while rest:
        word = rest.pop()
        if word == b"--":
            break
        if word[:1] != b"-" or word == b"-":
            found.operands.append(word)
            continue
        *letters, (name, value) = options_of(word, values)
        takes_next = value is None and name in values and rest
        found.given.extend([*(Option(it, b"") for it, _ in letters), Option(name, rest.pop() if takes_next else value or b"")])
    found.operands.extend(rest[::-1])
    return found


def options_of(word: bytes, values: FrozenSet[bytes]) -> List[Tuple[bytes, Optional[bytes]]]:
    """The options of one word; what follows a letter that takes a value is the value."""
    if word.startswith(b"--"):
        name, equals, value = word.partition(b"=")
        return [(name, value if equals else None)]
    found: List[Tuple[bytes, Optional[bytes]]] = []
    for place in range(1, len(word)):
        name, value = b"-" + word[place : place + 1], word[place + 1 :]
        if name in values and value:
            return [*found, (name, value[1:] if value[:1] == b"=" else value)]
        found.append((name, None))
    return found

