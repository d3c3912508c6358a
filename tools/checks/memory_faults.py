"""Checks where the sources of the crates say that memory ran out: only where an allocation failed.

usage: tools/check.py memory_faults

No contract can forbid a call to report that memory ran out where it did not, so this looks at the code of each crate
that is not one of tests. Types, `use` and patterns may name what follows; of expressions:

- `AllocError` and `AllocFailed` are in none, so these values come from allocations alone; but where a `checked_add` or
  `checked_mul` has no value, or a `u32::try_from` no number, a count that does not fit is one too. No state within the limits has
  one: what is added or multiplied by is one digit, a variable or a call, and no sum or constant, which would be a limit.
- `NoMemory`, of any fault, is made only in an `impl From` of one of these, or out of another `NoMemory`, or out of the
  kind `OutOfMemory` of std and of the kit's crates: in an arm of a match each of whose patterns names one, or in the
  block of an `if` whose condition ends with a comparison with one. Comparisons alone may name it anywhere.
- None of the three has another name, by `use .. as ..` or by `type` (`NoMemory` as a name of `AllocError` apart).
- `with_capacity` has no product: room for one may be refused where that for what is put there would not be.

EXCEPTIONS has the other places: the one arm of a function, with its reason. One where nothing is found any more is a
fault too.
Prints `FILE:LINE: what is wrong`. The exit status is 1 if something is.

documents.py reads the sources by this file too: tokens, and functions with their clauses. It reads as much
of Rattle as items need; the body of a function stays a list of tokens.
"""
from __future__ import annotations

import glob
import os
import re
import sys
from typing import Dict, Iterable, Iterator, List, NamedTuple, Optional, Set, Tuple

from lib.script import TOP

ALONE = "it is the only fault of the call before it, by a clause or by its type"
FOUND = "the path was looked up before, so that this call has no other fault"
# The file and the function, with the patterns of the one arm in which the fault is made there, and why it may be.
EXCEPTIONS: Dict[Tuple[str, str], Tuple[str, str]] = {
    ("crates/acl_tree/src/edit_command.rt", "prepare_chmod"):
        ("Err ( _ )", "the operands were looked up before, and a mode is put into each file that is found"),
    ("crates/acl_tree/src/creat.rt", "node_of"): ("Err ( _ )", ALONE),
    ("crates/facl_answers/src/path_texts.rt", "files_at"): ("Err ( fault )", FOUND),
    ("crates/facl/src/session.rt", "FaclSession::finish_line"): ("Err ( _ )", ALONE),
    ("crates/facl/src/line.rt", "text_of_unit"): ("HeldText :: Lost", "the room for the line's text was refused"),
}
ALLOCATIONS, FAULT = ("AllocError", "AllocFailed"), "NoMemory"
NAMES = (*ALLOCATIONS, FAULT)
# What a pattern names where memory ran out: a fault, or the kind of an error of others.
RAN_OUT = {FAULT, "OutOfMemory"}
SUM = re.compile(r"(?:\. checked_(?:add|mul)|u32 :: try_from) \( (?:\d|[a-z_]\w*(?: \. \w+)*(?: \( [^()+-]* \))?) \)(?: \))?$")
PRODUCTS = {"checked_mul", "saturating_mul", "wrapping_mul", "checked_pow", "saturating_pow", "wrapping_pow", "pow"}
ANY = "|".join(NAMES)
RENAMED = re.compile(rf"\b({ANY})\s+as\s+(?!(?:{ANY})\b)"
                     rf"|^[^/\n]*\btype\s+(?!(?:{ANY})\b)\w+\s*=\s*(?:\w+::)*({ANY})\b", re.M)
# What starts a pattern or a type, with what ends it.
PATTERNS = {"let": ("=", ";"), "for": ("in", ";"), "->": ("{", "=", ";", ")"), "use": (";",)}


# --- what the sources have

TOKEN = re.compile(r"""
    (?P<skip>\s+|//[^\n]*|/\*.*?\*/)
    | b?r(?P<hashes>\#*)".*?"(?P=hashes) | b?"(?:\\.|[^"\\])*"
    | b?'(?:\\(?:x[0-9a-fA-F]{2}|u\{[0-9a-fA-F]+\}|.)|[^'\\\n])' | '?[^\W\d]\w* | \d\w* | ::|=>|->|==|!=|&&|\|\||.
    """, re.X | re.S)
OPENS, CLOSES = set("{(["), set("})]")


class Token(NamedTuple):
    """A piece of a source: a name, a text, a number or a mark, its line counted from 1, and where it starts."""

    text: str
    line: int
    start: int


class Scope(NamedTuple):
    """The `impl` or `trait` that a function is in, by the last names of type and trait, and the trait's arguments."""

    type: Optional[str] = None
    trait: Optional[str] = None
    arguments: str = ""


class Clause(NamedTuple):
    """A clause: `requires` or `ensures`, its name if it has one, and what is in its braces, with the line that this starts in."""

    kind: str
    name: Optional[str]
    line: int
    text: str


class Function(NamedTuple):
    """A function or method, with the place of its word `fn` among the tokens, and its own clauses; public is also what a trait has."""

    name: str
    crate: str
    scope: Scope
    line: int
    end: int
    is_public: bool
    place: int
    clauses: List[Clause]
    body: List[Token]

    @property
    def label(self) -> str:
        return f"{self.scope.type}::{self.name}" if self.scope.type else self.name


def tokens_of(text: str) -> List[Token]:
    """All tokens but blanks and comments."""
    tokens, line = [], 1
    for match in TOKEN.finditer(text):
        if match["skip"] is None:
            tokens.append(Token(match.group(), line, match.start()))
        line += match.group().count("\n")
    return tokens


def end_of_group(tokens: List[Token], at: int) -> int:
    """The place after the bracket that closes the one at `at`."""
    depth = 0
    while at < len(tokens):
        depth += (tokens[at].text in OPENS) - (tokens[at].text in CLOSES)
        at += 1
        if depth == 0:
            break
    return at


def find(tokens: List[Token], at: int, wanted: Iterable[str], end: Optional[int] = None) -> int:
    """The place of the first token from `at` on that is wanted, and in no bracket; `end` where there is none before."""
    end = len(tokens) if end is None else end
    while at < end and tokens[at].text not in wanted:
        at = end_of_group(tokens, at) if tokens[at].text in OPENS else at + 1
    return min(at, end)


def after_angles(tokens: List[Token], at: int) -> int:
    """The place after `<..>`, where it is at `at`; else `at`."""
    depth = 0
    while at < len(tokens):
        depth += (tokens[at].text == "<") - (tokens[at].text == ">")
        if depth == 0:
            return at + 1 if tokens[at].text == ">" else at
        at += 1
    return at


def last_name(tokens: List[Token]) -> Tuple[Optional[str], str]:
    """The last name of a path such as `a::B<C>`, and its arguments, `C`."""
    at = next((at for at, token in enumerate(tokens) if token.text in ("<", "where")), len(tokens))
    names = [token.text for token in tokens[:at] if token.text.isidentifier() and token.text not in ("mut", "dyn")]
    return names[-1] if names else None, "".join(token.text for token in tokens[at + 1:after_angles(tokens, at) - 1])


def scope_of(word: str, header: List[Token]) -> Scope:
    """The scope of `impl<..> TRAIT for TYPE`, `impl<..> TYPE` or `trait TRAIT`, of the word and the tokens after it."""
    if word != "impl":
        return Scope(header[0].text, header[0].text) if word == "trait" else Scope()
    header = header[after_angles(header, 0):] if header[0].text == "<" else header
    split = next((at for at, token in enumerate(header) if token.text == "for"), -1)
    trait, arguments = last_name(header[:split]) if split >= 0 else (None, "")
    return Scope(last_name(header[split + 1:])[0], trait, arguments)


class Source:
    """What a file has: its functions, and all tokens."""

    def __init__(self, file: str, text: str) -> None:
        self.file, self.text, self.tokens, self.lines = file, text, tokens_of(text), text.split("\n")
        self.crate = file.split("/")[1]
        self.functions: List[Function] = []
        self.read(0, len(self.tokens), Scope())

    def read(self, at: int, end: int, scope: Scope) -> None:
        """Reads the items from one place to another, all of them in a scope."""
        while at < end:
            word = self.tokens[at].text
            if word == "fn":
                at = self.function(at, scope)
            elif word in ("impl", "trait", "mod", "use", "ghost", "macro_rules"):
                start = find(self.tokens, at, ("{", ";"), end)
                is_block = start < end and self.tokens[start].text == "{"
                after = end_of_group(self.tokens, start) if is_block else start + 1
                if word in ("impl", "trait", "mod"):
                    self.read(start + 1, after - 1, scope_of(word, self.tokens[at + 1:start]))
                at = after
            else:
                at = end_of_group(self.tokens, at) if word in OPENS else at + 1

    def function(self, at: int, scope: Scope) -> int:
        """Reads the function at a place, with its clauses and its body. The place after it."""
        tokens, first, stops = self.tokens, at, ("{", ";", "requires", "ensures")
        clauses: List[Clause] = []
        at = find(tokens, at, stops)
        while at < len(tokens) and tokens[at].text in stops[2:]:
            kind, name, open_at = tokens[at].text, tokens[at + 1].text, find(tokens, at, "{")
            at = end_of_group(tokens, open_at)
            text = self.text[tokens[open_at].start + 1:tokens[at - 1].start] if open_at < at else ""
            clauses.append(Clause(kind, None if name == "{" else name, tokens[min(open_at, at - 1)].line, text))
            at = find(tokens, at, stops)
        end = end_of_group(tokens, at) if at < len(tokens) and tokens[at].text == "{" else at + 1
        is_public = tokens[first - 1].text == "pub" or (scope.type is not None and scope.type == scope.trait)
        last = tokens[min(end, len(tokens)) - 1].line
        self.functions.append(Function(tokens[first + 1].text, self.crate, scope, tokens[first].line, last, is_public,
                                       first, clauses, tokens[at + 1:end - 1]))
        return end


def text_of(*path: str) -> str:
    with open(os.path.join(*path), encoding="utf-8") as file:
        return file.read()


def found_in(top: str, *patterns: str) -> List[str]:
    """The files of patterns, by their paths in the repository."""
    paths = (path for pattern in patterns for path in glob.glob(os.path.join(top, pattern), recursive=True))
    return sorted({os.path.relpath(path, top) for path in paths if os.path.isfile(path)})


def is_of_tests(crate: str) -> bool:
    """Whether a crate has nothing but tests."""
    return crate.endswith("_tests")


class Library:
    """The sources of all crates that are not of tests alone, by their paths in the repository."""

    def __init__(self, top: str) -> None:
        paths = found_in(top, "crates/*/src/**/*.rt")
        self.sources = {path: Source(path, text_of(top, path)) for path in paths if not is_of_tests(path.split("/")[1])}
        self.functions = [function for source in self.sources.values() for function in source.functions]
        self.traits = {(function.scope.trait, function.name): function.clauses for function in self.functions
                       if function.scope.trait == function.scope.type is not None}

    def of_crate(self, crate: str) -> List[Source]:
        return [source for source in self.sources.values() if source.crate == crate]

    def clauses(self, function: Function, kinds: Tuple[str, ...] = ("requires", "ensures")) -> List[str]:
        """The names of a function's clauses, with those of its trait."""
        scope = function.scope
        of_trait = self.traits.get((scope.trait, function.name), []) if scope.trait not in (None, scope.type) else []
        return list(dict.fromkeys(clause.name for clause in function.clauses + of_trait if clause.name and clause.kind in kinds))


# --- where memory ran out


class Body:
    """Where in a body patterns and types are, where a NoMemory may be made, and where any of NAMES; and the patterns of the
    innermost arm that each token is in."""

    def __init__(self, tokens: List[Token]) -> None:
        self.tokens, self.texts = tokens, [token.text for token in tokens]
        self.patterns: Set[int] = set()
        self.allowed: Set[int] = set()
        self.without_sum: Set[int] = set()
        self.arms: Dict[int, str] = {}
        for at, text in enumerate(self.texts):
            self.look(at, text)

    def look(self, at: int, text: str) -> None:
        if text == "match":
            self.match(at, find(self.tokens, at, ("{",)))
        elif text == "let":
            self.patterns.update(range(at, find(self.tokens, at, PATTERNS[text])))
            self.let_else(at)
        elif text == "if":
            self.condition(at)
        elif self.texts[at:at + 3] == ["matches", "!", "("]:
            end = end_of_group(self.tokens, at + 2) - 1
            comma = find(self.tokens, at + 3, (",",), end)
            self.patterns.update(range(comma, find(self.tokens, comma, ("if",), end)))
        elif self.texts[at - 1:at + 1] == ["::", "<"]:
            self.patterns.update(range(at, after_angles(self.tokens, at)))
        elif text in PATTERNS and self.texts[at:at + 2] != ["for", "<"]:
            self.patterns.update(range(at, find(self.tokens, at, PATTERNS[text])))

    def has_sum(self, at: int, end: int) -> bool:
        """Whether an expression ends in a sum or a number that may not fit."""
        return SUM.search(" ".join(self.texts[at:end])) is not None

    def let_else(self, at: int) -> None:
        """The block of `let .. = .. else {..}`, where the value is a sum."""
        start = find(self.tokens, at, ("else", ";"))
        if self.texts[start:start + 2] == ["else", "{"] and self.has_sum(at, start):
            self.without_sum.update(range(start, end_of_group(self.tokens, start + 1)))

    def match(self, first: int, at: int) -> None:
        """The arms of the match at `first`, whose brace is at `at`."""
        is_sum = self.has_sum(first, at)
        end, at = end_of_group(self.tokens, at) - 1, at + 1
        while at < end:
            arrow = find(self.tokens, at, ("=>",), end)
            value = min(arrow + 1, end)
            is_block = self.texts[value] == "{"
            after = end_of_group(self.tokens, value) if is_block else find(self.tokens, value, (",",), end)
            guard = find(self.tokens, at, ("if",), arrow)
            self.patterns.update(range(at, guard))
            patterns = " ".join(self.texts[at:guard])
            self.arms.update((place, patterns) for place in range(value, after))
            if all(RAN_OUT & set(alternative.split()) for alternative in patterns.split("|")):
                self.allowed.update(range(value, after))
            if is_sum and patterns == "None":
                self.without_sum.update(range(value, after))
            at = after + (self.texts[after] == ",")

    def condition(self, at: int) -> None:
        start = find(self.tokens, at, ("{", "=>"))
        texts = self.texts[at:start]
        is_compared = texts[-1] == FAULT and self.before_path(start - 1) == "=="
        if self.texts[start:start + 1] == ["{"] and is_compared and not {"||", "!"} & set(texts):
            self.allowed.update(range(start, end_of_group(self.tokens, start)))

    def before_path(self, at: int) -> str:
        """What is before the path that ends at `at`."""
        while at >= 2 and self.texts[at - 1] == "::":
            at -= 2
        return self.texts[at - 1] if at else ""

    def made(self) -> Iterator[Tuple[int, str, str]]:
        """The lines where one of NAMES is in an expression and may not be, with its name, and the arm that it is in."""
        for at, token in enumerate(self.tokens):
            if token.text in NAMES and at not in self.patterns | self.without_sum:
                may_be = at in self.allowed or self.before_path(at) in ("==", "!=")
                yield from () if token.text == FAULT and may_be else ((token.line, token.text, self.arms.get(at, "")),)


def products(tokens: List[Token]) -> Iterator[int]:
    """The lines where a function makes room for a product."""
    for at, token in enumerate(tokens):
        if token.text == "with_capacity" and tokens[at + 1].text == "(":
            texts = [each.text for each in tokens[at + 2:end_of_group(tokens, at + 1)]]
            is_product = any(after == "*" and re.match(r"[\w)\]]", before) for before, after in zip(texts, texts[1:]))
            if is_product or PRODUCTS & set(texts):
                yield token.line


class Made(NamedTuple):
    """What is made or named where it may not be: the line, the function and the arm as EXCEPTIONS has them, the text."""

    line: int
    place: str
    arm: str
    text: str


def in_functions(source: Source) -> Iterator[Made]:
    """What functions make, each with its place: a `from` by the impl that it is in."""
    for function in source.functions:
        type_, trait, argument = function.scope
        place = f"From<{argument}> for {type_}" if trait == "From" else function.label
        is_of_allocation = trait == "From" and argument.split("<")[0] in ALLOCATIONS
        for line, name, arm in Body(function.body).made():
            if name != FAULT or not is_of_allocation:
                yield Made(line, place, arm, f"{name} is made in {place}")
        yield from (Made(line, place, "", f"room for a product is made in {place}") for line in products(function.body))


def in_items(source: Source) -> Iterator[Made]:
    """Values of constants and macros, and other names."""
    tokens = source.tokens
    for at, token in enumerate(tokens):
        if token.text in ("const", "static", "macro_rules"):
            start = find(tokens, at, ("{",) if token.text == "macro_rules" else (";",))
            yield from (Made(each.line, "", "", f"{each.text} is named in a {token.text}")
                        for each in tokens[at:end_of_group(tokens, start)] if each.text in NAMES)
    for match in RENAMED.finditer(source.text):
        yield Made(source.text.count("\n", 0, match.start()) + 1, "", "", f"{match[1] or match[2]} gets another name")


def faults_of(source: Source, exceptions: Dict[Tuple[str, str], Tuple[str, str]],
              used: Set[Tuple[str, str]]) -> Iterator[str]:
    """The lines to print for a source; `used` gets the exceptions that were met. Each is for one place."""
    for made in sorted((*in_functions(source), *in_items(source))):
        key = (source.file, made.place)
        if key in exceptions and key not in used and exceptions[key][0] == made.arm:
            used.add(key)
        else:
            yield f"{source.file}:{made.line}: {made.text}"


def main() -> int:
    if len(sys.argv) > 1:
        sys.exit(__doc__)
    used: Set[Tuple[str, str]] = set()
    lines = [line for source in Library(TOP).sources.values() for line in faults_of(source, EXCEPTIONS, used)]
    lines += [f"{file}:1: nothing is found in {place}, which EXCEPTIONS of tools/checks/memory_faults.py has"
              for file, place in EXCEPTIONS if (file, place) not in used]
    print("".join(line + "\n" for line in lines), end="")
    return 1 if lines else 0
