"""Edits of crates/NAME/wrong/, and what a check says of one.

An edit is as those of must-fail/: a line `file: src/lib.rt`, and pairs of lines `old: TEXT` and `new: TEXT`, of which each
old TEXT is in that file once. Before them a line `function: NAME` has the function whose check must refuse it, by its path
in the crate, as `draft::Draft::insert`: the module, the type if it is in an `impl`, and the name.
"""
from __future__ import annotations

import glob
import os
import re
from typing import Dict, List, NamedTuple, Optional, Tuple

from . import script
from .script import TOP

PARTS = ("src", "specs", "proofs")
TYPES = re.compile(r"\b(?:struct|enum) (\w+)")
ONLY = re.compile(r"only=(\d+) proved=(\d+)")
# Lines that say where something is refused; and those of a proof that names what the edit took away.
TOLD = re.compile(r"\S+:\d+:\d+: error|note: \S+:\d+:\d+: .*(not proved|found no proof)")
CALLS, UNPROVED = "it calls `", "did not prove"  # What an answer has of the functions that it calls, and of its own goals.
NAMES = re.compile(r"(\./)?proofs/.*(has no field|is not in scope|has no `|was not admitted)")


class Fault(Exception):
    """Why an edit cannot be tried, or what a check says but that it refuses it."""


class CallsRefused(Fault):
    """The function is refused, but all that is said against it is that it calls one that is."""


class WrongBody(NamedTuple):
    """An edit: its crate and name, the function that must be refused, its lines, and the texts that it makes of files."""

    crate: str
    name: str
    function: str
    lines: List[Tuple[str, str]]
    texts: Dict[str, str]

    @property
    def label(self) -> str:
        return f"{self.crate}/{self.name}"

    @property
    def last_name(self) -> str:
        return self.function.split("::")[-1]


def read_text(path: str) -> str:
    try:
        with open(path, encoding="utf-8") as file:
            return file.read()
    except (OSError, UnicodeDecodeError) as fault:
        raise Fault(f"{os.path.basename(path)} cannot be read: {fault}") from fault


def edited(lines: List[Tuple[str, str]], folder: str, others: Optional[Dict[str, str]] = None) -> Dict[str, str]:
    """The texts of the files of the crate in this folder that the lines of an edit change, by their paths in it, with those of
    other edits, which are made before it."""
    texts: Dict[str, str] = dict(others or {})
    path = old = ""
    for word, text in lines:
        if word == "file":
            path = text
            if os.path.normpath(path) != path or path.split("/")[0] not in PARTS:
                raise Fault(f"{path} is no file of {', '.join(PARTS)}")
            texts[path] = texts.get(path) or read_text(os.path.join(folder, path))
        elif word == "old":
            old = text
        elif word == "new":
            found = texts[path].count(old) if path and old else 0
            if found != 1:
                raise Fault(f"it does not apply: {path} has `{old}` {found} times, and not once")
            texts[path], old = texts[path].replace(old, text), ""
    if not any(word == "new" for word, _ in lines):
        raise Fault("it changes nothing: there is no line `new:`")
    return texts


def lines_of(path: str) -> List[Tuple[str, str]]:
    """The lines of an edit's file, each the word before its colon and the text after it."""
    lines = [line.partition(":")[::2] for line in read_text(path).split("\n") if line]
    return [(word, text[1:] if text.startswith(" ") else text) for word, text in lines]


def crate_of(path: str) -> str:
    """The folder of the crate of an edit's file."""
    return os.path.dirname(os.path.dirname(path))


def place_of(function: str, folder: str) -> Tuple[str, List[str]]:
    """The file of a function's module, by the function's path in the crate of a folder, and the names that follow in that path: the
    type, where the function is in an `impl`, and its own."""
    names = function.split("::")
    for count in range(len(names) - 1, 0, -1):
        path = os.path.join("src", *names[:count]) + ".rt"
        if os.path.isfile(os.path.join(folder, path)):
            return path, names[count:]
    return os.path.join("src", "lib.rt"), names


def hold_function(function: str, folder: str) -> None:
    """Fails unless the crate in a folder has a function of this path. That of a type is named by the type's module, and may be in
    another one; that of a trait by the type and the trait in one word."""
    path, (*types, name) = place_of(function, folder)
    text = read_text(os.path.join(folder, path))
    if types and not any(types[0].startswith(declared) for declared in TYPES.findall(text)):
        raise Fault(f"it names {function}, and {path} has no type `{types[0]}`")
    everywhere = glob.glob(os.path.join(folder, "src", "**", "*.rt"), recursive=True)
    if not any(re.search(rf"\bfn {re.escape(name)}\b", text) for text in (map(read_text, everywhere) if types else [text])):
        raise Fault(f"it names {function}, and {'the crate' if types else path} has no `fn {name}`")


def read(path: str) -> WrongBody:
    """The edit of a file crates/NAME/wrong/EDIT.edit."""
    lines, folder = lines_of(path), crate_of(path)
    functions = [text for word, text in lines if word == "function"]
    if len(functions) != 1 or not functions[0]:
        raise Fault("it names no function, or several: one line `function: NAME` says which must be refused")
    hold_function(functions[0], folder)
    name = os.path.basename(path)[:-len(".edit")]
    return WrongBody(os.path.basename(folder), name, functions[0], lines, edited(lines, folder))


def has_verdict(status: int, said: str) -> bool:
    """Whether antt reached a verdict on all functions of a check that ended."""
    return status in (0, 1) and ONLY.fullmatch(said.rstrip("\n").split("\n")[-1]) is not None


def answers_of(crate: str, functions: List[str], status: int, said: str) -> List[str]:
    """What a check that ended with a verdict says of each of these functions."""
    lines = said.rstrip("\n").split("\n")
    if status < 0:
        raise Fault(f"the check was ended by signal {-status}, and says nothing")
    if not has_verdict(status, said):
        raise Fault(f"the check has no verdict, status {status}: {' | '.join(lines[-3:])[:300]}")
    answers = dict(line[len("fn "):].partition(": ")[::2] for line in lines if line.startswith("fn "))
    missing = [function for function in functions if f"{crate}::{function}" not in answers]
    if missing:
        raise Fault(f"the check does not name {', '.join(missing)}")
    return [answers[f"{crate}::{function}"] for function in functions]


def hold_control(crate: str, functions: List[str], status: int, said: str) -> None:
    """Fails unless the unchanged functions are proved."""
    answers = answers_of(crate, functions, status, said)
    found = ONLY.fullmatch(said.rstrip("\n").split("\n")[-1])
    if status or {*answers} != {"proved"} or not found or found[1] != found[2]:
        raise Fault(f"unchanged, not all is proved: {found[0] if found else ''} {dict(zip(functions, answers))}")


def told_of(crate: str, function: str, said: str) -> List[str]:
    """The lines that say where a function is refused: in its proof, or just before what the check says of it."""
    lines = said.split("\n")
    at = next(at for at, line in enumerate(lines) if line.startswith(f"fn {crate}::{function}: "))
    before = next((other for other in range(at - 1, -1, -1) if lines[other].startswith("fn ")), -1)
    in_proof = f"./proofs/{function.replace('::', '/')}/"
    return [line for place, line in enumerate(lines)
            if TOLD.match(line) and (line.startswith(in_proof) or before < place < at and not line.startswith("./proofs/"))]


def refusal(body: WrongBody, status: int, said: str) -> str:
    """What refuses the edit. Fails unless the check refuses the function that the edit names, for itself."""
    answer = answers_of(body.crate, [body.function], status, said)[0]
    if not status or not answer.startswith(("not proved", "no proof")):
        raise Fault(f"NOT REFUSED: {body.function} is {answer} with this edit")
    told = told_of(body.crate, body.function, said)
    if CALLS in answer and not told and UNPROVED not in answer:
        raise CallsRefused(f"NOT REFUSED for itself: {body.function} is {answer}")
    first = next((line for line in told if not NAMES.match(line)), "")
    if told and not first:
        return f"refused, only since a proof names what the edit took away: {told[0][:160]}"
    return f"refused: {(first if answer.startswith('not proved') else answer)[:160]}"


def in_folder(crate: str, top: str = TOP) -> List[str]:
    """The files of a crate's wrong/, in order. Fails where one is no edit."""
    folder = os.path.join(top, "crates", crate, "wrong")
    names = sorted(os.listdir(folder)) if os.path.isdir(folder) else []
    for name in names:
        if not name.endswith(".edit") or not os.path.isfile(os.path.join(folder, name)):
            raise script.Failed(f"crates/{crate}/wrong/{name} is no edit: its name ends in .edit")
    return [os.path.join(folder, name) for name in names]
