"""facl complete: prints the completion of a shell, which is made of the parsers; or, for one, the words of a kind."""
from __future__ import annotations

import argparse
import os
import re
from typing import Callable, Dict, Iterator, List, Tuple

from ..base.folders import folder_of, kept
from ..base.messages import Command
from ..base.names import read_name, read_path, write_name
from ..model import sources, split_tree
from ..model.everybody import SHOWN
from ..model.people import rows_of
from ..program.protocol import FILE_HEAD
from .options import ALL, BY_FIELD, FILE, FINDING, FINDINGS, GROUP, PATH, SNAPSHOT, USER, VERB, WORD, VerbOption
from .store import chosen, place, snapshots_in
from .table import VERBS, Verb

# --- words of a kind, of the snapshot that is meant


def users() -> Iterator[bytes]:
    yield SHOWN
    yield from (row[0] for row in rows_of(folder_of(a_folder()).read(b"passwd")))


def groups() -> Iterator[bytes]:
    return (row[0] for row in rows_of(folder_of(a_folder()).read(b"group")))


def a_folder() -> bytes:
    """The snapshot, or its first part."""
    return split_tree.snapshots_in(chosen(None).folder)[0]


def paths(word: bytes) -> Iterator[bytes]:
    """What is recorded in the folder that a word names so far."""
    above = read_path(word.rpartition(b"/")[0])
    start = re.escape(b"/" + write_name(above) + b"/" * bool(above))
    pattern = re.compile(rb"^" + re.escape(FILE_HEAD) + rb"(" + start + rb"[^/\n]+/?)$", re.MULTILINE)
    for folder in split_tree.snapshots_in(chosen(None).folder):
        yield from map(read_name, pattern.findall(folder_of(folder).read(sources.DUMP)))


WORDS_OF: Dict[str, Callable[[bytes], Iterator[bytes]]] = {
    USER: lambda _word: users(),
    GROUP: lambda _word: groups(),
    SNAPSHOT: lambda _word: (it.name for it in snapshots_in(place()) if not it.fault),
    FINDING: lambda _word: map(str.encode, FINDINGS),
    VERB: lambda _word: (verb.name.split()[0].encode() for verb in VERBS),
    PATH: paths,
}

# --- tables of a script


def options_of(verb: Verb) -> List[VerbOption]:
    return [BY_FIELD[field] for field in verb.options]


def spelled(options: List[VerbOption]) -> List[str]:
    return [name for option in options for name in option.names]


def verbs_of_one_word() -> List[Verb]:
    return [verb for verb in VERBS if " " not in verb.name]


def longer(verb: Verb) -> Dict[str, Verb]:
    """The verbs that begin with this one, by the word after it."""
    return {it.name.split()[1]: it for it in VERBS if it.name.startswith(verb.name + " ")}


def kinds_of(verb: Verb) -> List[str]:
    """The kind of each operand; the last one goes on where it may come several times."""
    return [it.kind + "*" * (it.nargs in ("*", "+")) for it in verb.operands]


def quoted(text: str) -> str:
    """A word for any of the shells."""
    return "'" + text.replace("'", "'\\''") + "'"


def values() -> Iterator[Tuple[str, VerbOption]]:
    return ((name, option) for option in ALL if option.value for name in option.names)


# --- bash: below completion/facl.bash, whose functions read the line and quote names


def kind_or_choices(option: VerbOption) -> str:
    return " ".join(option.choices) if option.choices and option.kind == WORD else ":" + option.kind


def bash_table(name: str, rows: Dict[str, str]) -> str:
    pairs = ("[%s]=%s" % (quoted(key), quoted(value)) for key, value in rows.items())
    return "declare -gA _facl_%s=(%s)" % (name, " ".join(pairs))


def bash() -> Iterator[str]:
    yield "# What is below is made of the parsers of the verbs."
    yield "_facl_verbs=(%s)" % " ".join(verb.name for verb in verbs_of_one_word())
    yield bash_table("options", {verb.name: " ".join([*spelled(options_of(verb)), "--help"]) for verb in VERBS})
    yield bash_table("kinds", {verb.name: " ".join(kinds_of(verb)) for verb in VERBS})
    yield bash_table("more", {verb.name: " ".join(longer(verb)) for verb in VERBS if longer(verb)})
    yield bash_table("values", {name: kind_or_choices(it) for name, it in values()})
    yield "complete -F _facl facl"


# --- zsh

ZSH_HEAD = """\
#compdef facl
_facl_kind() { local -a found; found=(${(f)"$(facl complete $1 -- "$PREFIX" 2>/dev/null)"}); compadd -a found }
local -a verbs; verbs=(%s)
if (( CURRENT == 2 )); then _describe verb verbs; return; fi
local verb=$words[2]; shift words; (( CURRENT-- ))
case $verb in"""


def zsh_words(kind: str, choices: Tuple[str, ...] = ()) -> str:
    if choices:
        return "(%s)" % " ".join(choices)
    return {FILE: "_files", WORD: " "}.get(kind, "{_facl_kind %s}" % kind)


def zsh_option(option: VerbOption) -> str:
    text = re.sub(r"([\[\]:\\])", r"\\\1", option.help)
    value = ":%s:%s" % (option.value, zsh_words(option.kind, option.choices)) if option.value else ""
    several = "*" if option.is_repeated else "(%s)" % " ".join(option.names)
    names = (name + "=" * (bool(option.value) and name.startswith("--")) for name in option.names)
    return " ".join(quoted("%s%s[%s]%s" % (several, name, text, value)) for name in names)


def zsh_operands(verb: Verb) -> List[str]:
    """Those of a verb; where its first word may be that of a longer verb, all that may come."""
    for word, other in longer(verb).items():
        kinds = "[[ $words[2] != %s ]] || _facl_kind %s; _facl_kind %s" % (
            word, other.operands[0].kind, verb.operands[0].kind)
        return [quoted("*:%s:{compadd %s; %s}" % (verb.operands[0].name, word, kinds))]
    places = ("*" if it.nargs in ("*", "+") else str(place) for place, it in enumerate(verb.operands, 1))
    words = ((it.name, zsh_words(it.kind, it.choices)) for it in verb.operands)
    return [quoted("%s:%s:%s" % (place, name, kind)) for place, (name, kind) in zip(places, words)]


def zsh() -> Iterator[str]:
    yield ZSH_HEAD % " ".join(quoted("%s:%s" % (verb.name, verb.does)) for verb in verbs_of_one_word())
    for verb in verbs_of_one_word():
        yield "%s) _arguments %s ;;" % (verb.name, " ".join([*map(zsh_option, options_of(verb)), *zsh_operands(verb)]))
    yield "esac"


# --- fish


def fish_kind(kind: str) -> str:
    return "-a '(facl complete %s -- (commandline -ct) 2>/dev/null)'" % kind


def fish_option(option: VerbOption) -> str:
    words = ["-s " + name[1:] if not name.startswith("--") else "-l " + name[2:] for name in option.names]
    if option.choices:
        words.append("-x -a " + quoted(" ".join(option.choices)))
    elif option.value:
        words.append("-r" if option.kind in (FILE, WORD) else "-x " + fish_kind(option.kind))
    return " ".join([*words, "-d " + quoted(option.help)])


def fish() -> Iterator[str]:
    names = " ".join(verb.name for verb in verbs_of_one_word())
    seen = "complete -c facl -n '__fish_seen_subcommand_from %s' "
    for verb in verbs_of_one_word():
        first = "complete -c facl -f -n 'not __fish_seen_subcommand_from %s' " % names
        yield first + "-a %s -d %s" % (verb.name, quoted(verb.does))
        yield from (seen % verb.name + fish_option(option) for option in options_of(verb))
        for word, other in longer(verb).items():
            yield seen % verb.name + "-f -a %s -d %s" % (word, quoted(other.does))
            yield seen % word + "-f -a %s" % quoted(" ".join(other.operands[0].choices))
        kinds = [it.kind for it in verb.operands if it.kind not in (FILE, WORD)]
        yield from (seen % verb.name + "-f " + fish_kind(kind) for kind in dict.fromkeys(kinds))


SHELLS: Dict[str, Callable[[], Iterator[str]]] = {"bash": bash, "zsh": zsh, "fish": fish}


def body(command: Command, given: argparse.Namespace) -> int:
    if given.kind in SHELLS:
        for line in SHELLS[given.kind]():
            command.write(line.encode() + b"\n")
        return 0
    with kept():
        word = os.fsencode(given.word or "")
        for found in WORDS_OF[given.kind](word):
            if b"\n" not in found:
                command.write(found + b"\n")
    return 0
