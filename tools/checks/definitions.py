"""The definitions of the crates, as files of specs/ have them, and what each uses: other definitions, types of Rust, names of the kit.
chain.py follows them.

It reads as much of antt as definitions need: imports, `module _ (..) where`, records, data, and functions by their clauses, with the
names that patterns, `λ`, `let`, `do` and types bind. What has neither `abbrev` nor `unfoldable` is a lemma: its statement is read alone.
A form that is not read, and a name that nothing declares, imports or binds, is a Fault with its file and line.
"""
from __future__ import annotations

import glob
import itertools
import os
import re
from typing import Dict, FrozenSet, Iterator, List, NamedTuple, Optional, Protocol, Set, Tuple, Union

from lib import script
from .memory_faults import Clause, Function, OPENS, Source, end_of_group, find, text_of, Token as RustToken

NAME = r'(?:«[^»]*»|[^\s(){}.;,@"«»]+)'
TOKEN = re.compile(rf'(?P<skip>\s+|--[^\n]*)|"(?:\\.|[^"\\\n])*"|\.?{NAME}(?:\.{NAME})*|[(){{}};,@.]')
CLOSING = {"(": ")", "{": "}", "[": "]"}
IMPORT = re.compile(r"(?P<passed>pub )?use (?P<path>[^\s;]+?)(?:\.\{(?P<items>[^}]*)\}| as (?P<name>[^\s;]+))?;?")
DECLARATION = re.compile(r"(?P<marks>(?:(?:unfoldable|abbrev|axiom|pub) )*)"
                         r"(?:(?P<kind>record|data) (?P<type>\S+)|(?P<name>\S+) (?:\{[^}:]*\} )?:(?!\S))")
HOLE = "◌"
# The operator that joins the statements of a `do`.
THEN = ">>="
# What is built in: marks, words of types, and names that no file imports.
BUILT_IN = {*"→×=:|↦;,(){}[].@_", "Type", "record", "in", "do", "←", "pub", "tt", "Unit", "⊥", "¬", "absurd"}
# What clauses of sources name without an import.
IN_CLAUSES = {"Some", "None", "Ok", "Err", "Self", "true", "false", "usize", "u8", "u16", "u32", "u64"}
CONSTRUCTORS = {"true", "false", "zero", "suc", "tt"}
# What is not read, since no definition of a crate has it.
UNREAD = {"elim", "where", "unfold", "open", "mutual", "deriving", "pattern", "coe", "com", "hcom"}
DEPTHS = {**dict.fromkeys("{([<", 1), **dict.fromkeys("})]>", -1)}
ITEMS = {"struct", "enum", "trait", "type", "const", "static"}
NONE: FrozenSet[str] = frozenset()


class Fault(script.Failed):
    """What cannot be read or resolved, at a line of a file."""

    def __init__(self, file: str, line: int, text: str) -> None:
        super().__init__(f"{file}:{line}: {text}")


class Token(NamedTuple):
    """A name with the fields after it, a text or a mark, and where it is: its line and its column."""

    text: str
    line: int
    column: int

    @property
    def is_name(self) -> bool:
        """Whether it is a name alone, which a binder may have."""
        return self.text not in BUILT_IN and not re.match(r'[\d".?]', self.text) and "." not in self.text


class Piece(NamedTuple):
    """A part of a definition that is read alone: a signature, a clause, a head or a field; and its first line."""

    line: int
    text: str


class Definition:
    """A definition: its comment, its lines, and the heads of the modules that it is in."""

    def __init__(self, file: SpecFile, line: int, name: str, kind: str, context: Tuple[Piece, ...], comment: List[str]) -> None:
        self.file, self.line, self.name, self.kind, self.context, self.comment = file, line, name, kind, context, comment
        self.lines: List[str] = []
        self.pieces: List[Piece] = []

    @property
    def crate(self) -> str:
        return self.file.crate

    @property
    def path(self) -> str:
        return self.file.path

    @property
    def label(self) -> str:
        return f"{self.file.module}.{self.name}"

    @property
    def is_shown(self) -> bool:
        """Whether its last piece is one of what it means: of a lemma only the first is, its statement."""
        return self.kind != "lemma" or len(self.pieces) == 1

    @property
    def code(self) -> List[str]:
        """Its lines without comments."""
        return [line for line in self.lines if not line.lstrip().startswith("--")]


class Item(NamedTuple):
    """A type, a trait or a constant of Rust, by its text."""

    crate: str
    path: str
    line: int
    name: str
    lines: Tuple[str, ...]

    @property
    def label(self) -> str:
        return f"{self.crate}::{self.name}"

    @property
    def code(self) -> List[str]:
        """Its lines without comments."""
        return [line for line in self.lines if line.strip() and not line.lstrip().startswith("//")]


class KitName(NamedTuple):
    """A name of the kit: of its crate, and of the module that it is imported from."""

    crate: str
    module: str
    name: str

    @property
    def label(self) -> str:
        return f"{self.module}.{self.name}" if self.module else self.name


Target = Union[Definition, Item, KitName]


class Import(NamedTuple):
    """What a name stands for by a `use`: a name of a module, or a whole module where there is no name."""

    path: str
    name: str
    line: int


def plain(name: str) -> str:
    """A name without the marks that escape it."""
    return name.replace("«", "").replace("»", "")


def tokens_of(piece: Piece) -> List[Token]:
    """All tokens of a piece but blanks and comments."""
    tokens, line, start = [], piece.line, 0
    for match in TOKEN.finditer(piece.text):
        if match["skip"] is None:
            tokens.append(Token(plain(match.group()), line, match.start() - start))
        if "\n" in match.group():
            line += match.group().count("\n")
            start = match.start() + match.group().rindex("\n") + 1
    return tokens


class Imports:
    """The names that `use` lines bring into a file: names of modules, modules, and the parts of operators."""

    def __init__(self) -> None:
        self.names: Dict[str, Import] = {}
        self.modules: Dict[str, Import] = {}
        self.operators: Dict[str, str] = {}
        self.passed: Dict[str, Import] = {}

    def add_operator(self, file: str, line: int, name: str) -> None:
        """Notes the parts of a name that is an operator's."""
        for part in (part for part in name.split(HOLE) if part and HOLE in name):
            if self.operators.setdefault(part, name) != name:
                raise Fault(file, line, f"`{part}` is a part of {self.operators[part]} and of {name}")

    def add(self, file: str, number: int, text: str) -> None:
        """Reads a `use` line."""
        match = IMPORT.fullmatch(text)
        if not match:
            raise Fault(file, number, f"this `use` is not read: {text}")
        path = match["path"][len("Rattle."):] if match["path"].startswith("Rattle.") else match["path"]
        if match["items"] is None:
            name = match["name"] or path.split(".")[-1]
            self.modules[name] = Import(path, "", number)
            if match["passed"]:
                self.passed[name] = self.modules[name]
            return
        for words in (item.split() for item in match["items"].split(",") if item.strip()):
            name, shown = plain(words[0]), plain(words[-1])
            self.names[shown] = Import(path, name, number)
            self.add_operator(file, number, shown)
            if match["passed"]:
                self.passed[shown] = self.names[shown]


class SpecFile:
    """A file of specs/: what it imports and what it declares."""

    def __init__(self, crate: str, path: str, text: str) -> None:
        self.crate, self.path = crate, path
        self.module = ".".join([crate, "specs", *os.path.splitext(path)[0].split("/")[3:]])
        self.imports = Imports()
        self.definitions: Dict[str, Definition] = {}
        self.constructors: Dict[str, Definition] = {}
        reading = Reading(self)
        for number, line in enumerate(text.split("\n"), 1):
            reading.read(number, line)

    def add(self, definition: Definition) -> None:
        if definition.name in self.definitions:
            raise Fault(self.path, definition.line, f"{definition.name} is declared twice")
        self.definitions[definition.name] = definition
        self.imports.add_operator(self.path, definition.line, definition.name)


def indented(line: str) -> int:
    return len(line) - len(line.lstrip())


class Module:
    """A `module _ (..) where` that is open: its own indentation, its head, and the indentation of what is in it, once known."""

    def __init__(self, indent: int, head: Piece) -> None:
        self.indent, self.head = indent, head
        self.inner: Optional[int] = None

    @property
    def is_begun(self) -> bool:
        """Whether its head is complete."""
        return self.head.text.endswith(" where")


class Reading:
    """Reads the lines of a file into its definitions."""

    def __init__(self, file: SpecFile) -> None:
        self.file = file
        self.modules: List[Module] = []
        self.comment: List[str] = []
        self.fixity: List[str] = []
        self.current: Optional[Definition] = None
        self.inner = -1

    @property
    def level(self) -> int:
        """The indentation of declarations here."""
        return (self.modules[-1].inner or 0) if self.modules else 0

    def read(self, number: int, line: str) -> None:
        text = line.strip()
        if not text:
            self.comment = []
        elif text.startswith("--"):
            if self.current and indented(line) > self.level:
                self.current.lines += [line] if self.current.is_shown else []
            else:
                self.comment.append(line)
        elif self.modules and not self.modules[-1].is_begun:
            module = self.modules[-1]
            module.head = Piece(module.head.line, f"{module.head.text}\n{line.rstrip()}")
        else:
            self.code(number, line.rstrip(), text)

    def code(self, number: int, line: str, text: str) -> None:
        """Reads a line that is neither blank nor a comment, nor in the head of a module."""
        indent = indented(line)
        while self.modules and indent <= self.modules[-1].indent:
            self.modules.pop()
            self.current = None
        if self.modules and self.modules[-1].inner is None:
            self.modules[-1].inner = indent
        if indent > self.level or text[0] in CLOSING.values():
            self.more(number, line, indent)
        elif text.startswith("module "):
            self.modules.append(Module(indent, Piece(number, line)))
            self.current, self.comment = None, []
        elif text.startswith(("use ", "pub use ")):
            self.file.imports.add(self.file.path, number, text)
            self.current, self.comment = None, []
        elif re.match(r"infix[lr]? ", text):
            self.fixity.append(line)
        elif not text.startswith(("mod ", "pub mod ")):
            self.start(number, line, text)

    def start(self, number: int, line: str, text: str) -> None:
        """Reads the first line of a declaration, or of a clause."""
        match = DECLARATION.match(text)
        if match:
            kind = match["kind"] or ("" if re.search("abbrev|unfoldable", match["marks"]) else "lemma")
            context = tuple(module.head for module in self.modules)
            self.current = Definition(self.file, number, plain(match["type"] or match["name"]), kind, context, self.comment)
            self.current.lines += self.fixity
            self.file.add(self.current)
            self.fixity, self.comment, self.inner = [], [], -1
        elif not self.current or text.split()[0] in ("abbrev", "unfoldable", "pub", "record", "data"):
            raise Fault(self.file.path, number, f"this is no declaration that is read: {text}")
        self.current.pieces.append(Piece(number, line))
        self.current.lines += [*self.comment, line] if self.current.is_shown else []
        self.comment = []

    def more(self, number: int, line: str, indent: int) -> None:
        """Reads a further line of a declaration: a field, a constructor, or more of the piece before."""
        current = self.current
        if not current:
            raise Fault(self.file.path, number, "this line belongs to no declaration")
        current.lines += [line] if current.is_shown else []
        has_fields = current.kind in ("record", "data") and current.pieces[0].text.endswith(" where")
        self.inner = indent if has_fields and self.inner < 0 else self.inner
        if has_fields and indent == self.inner:
            current.pieces.append(Piece(number, line))
            if current.kind == "data":
                self.file.constructors[plain(line.split()[0])] = current
        else:
            last = current.pieces[-1]
            gap = "\n" * (number - last.line - last.text.count("\n"))
            current.pieces[-1] = Piece(last.line, f"{last.text}{gap}{line}")


# --- what is used


class Scope(Protocol):
    """What the names of a text mean."""

    path: str

    def is_constructor(self, name: str) -> bool:
        """Whether a name in a pattern is matched, and binds nothing."""

    def targets(self, token: Token) -> List[Target]:
        """What a name that nothing binds means; nothing where it is built in."""


class Walk:
    """Finds what a piece uses, in the order in which it comes."""

    def __init__(self, tokens: List[Token], scope: Scope, found: Dict[Target, None]) -> None:
        self.tokens, self.scope, self.found = tokens, scope, found
        self.closes: Dict[int, int] = {}
        left: List[int] = []
        for at, token in enumerate(tokens):
            if token.text in CLOSING:
                left.append(at)
            elif token.text in CLOSING.values():
                if not left or CLOSING[tokens[left[-1]].text] != token.text:
                    raise self.fault(at, f"`{token.text}` closes nothing")
                self.closes[left.pop()] = at
        if left:
            raise self.fault(left[-1], f"nothing closes `{tokens[left[-1]].text}`")

    def fault(self, at: int, text: str) -> Fault:
        token = self.tokens[min(at, len(self.tokens) - 1)]
        return Fault(self.scope.path, token.line, text)

    def after(self, at: int) -> int:
        """The place after a token, or after the group that it opens."""
        return self.closes.get(at, at) + 1

    def first(self, at: int, end: int, text: str) -> int:
        """The place of the first such token that is in no group; the end where there is none."""
        while at < end and self.tokens[at].text != text:
            at = self.after(at)
        return min(at, end)

    def place(self, at: int, end: int, text: str) -> int:
        """The same, where there has to be one."""
        found = self.first(at, end, text)
        if found == end:
            raise self.fault(at, f"no `{text}` follows")
        return found

    def is_label(self, at: int, end: int) -> bool:
        """Whether a name is that of an argument, or of a field, which a `=` follows."""
        return at + 1 < end and self.tokens[at + 1].text == "="

    def name(self, at: int, bound: FrozenSet[str]) -> None:
        token = self.tokens[at]
        if token.text in UNREAD:
            raise self.fault(at, f"`{token.text}` is not read")
        if not token.text.startswith(".") and token.text.split(".")[0] not in bound:
            self.found.update(dict.fromkeys(self.scope.targets(token)))

    def terms(self, at: int, end: int, bound: FrozenSet[str]) -> FrozenSet[str]:
        """Reads what is from one place to another. Returns the names that are bound at its end."""
        while at < end:
            at, bound = self.term(at, end, bound)
        return bound

    def term(self, at: int, end: int, bound: FrozenSet[str]) -> Tuple[int, FrozenSet[str]]:
        """Reads a token, a group, or what binds a name. Returns the place after it, and the names that are bound there."""
        text = self.tokens[at].text
        if text == "λ":
            dot = self.place(at, end, ".")
            return dot + 1, bound | self.binders(at + 1, dot, bound)
        if text == "let":
            return self.let(at, end, bound)
        if self.after(at) < end and self.tokens[self.after(at)].text == "←":
            return self.statement(at, end, bound)
        if text in CLOSING:
            return self.after(at), self.group(at, bound)
        self.name(at, bound)
        return at + 1, bound

    def let(self, at: int, end: int, bound: FrozenSet[str]) -> Tuple[int, FrozenSet[str]]:
        """Reads `let x = e in`, or `let x : T = e in`."""
        equals = self.place(at, end, "=")
        colon = self.first(at, equals, ":")
        names = self.binders(at + 1, colon, bound)
        self.terms(colon, equals, bound)
        at, inner = equals + 1, bound
        while at < end and self.tokens[at].text != "in":
            at, inner = self.term(at, end, inner)
        if at == end:
            raise self.fault(equals, "no `in` follows this `let`")
        return at + 1, bound | names

    def statement(self, at: int, end: int, bound: FrozenSet[str]) -> Tuple[int, FrozenSet[str]]:
        """Reads `x ← e` of a `do`, up to the next statement: a line that begins no further right, or after a `;`."""
        start, arrow = self.tokens[at], self.after(at)
        stop = arrow
        while stop < end and self.tokens[stop].text != ";" and not (
                self.tokens[stop].line > start.line and self.tokens[stop].column <= start.column):
            stop = self.after(stop)
        self.found.update(dict.fromkeys(self.scope.targets(Token(THEN, start.line, start.column))))
        self.terms(arrow + 1, min(stop, end), bound)
        return min(stop, end), bound | self.binders(at, arrow, bound)

    def group(self, at: int, bound: FrozenSet[str]) -> FrozenSet[str]:
        """Reads a group: `(x y : A)` and `{x y : A}` bind names for what follows, any other one binds none. In braces, the name before
        a `=` is that of a field or an argument."""
        close = self.closes[at]
        colon = self.first(at + 1, close, ":")
        if colon < close and all(token.is_name for token in self.tokens[at + 1:colon]):
            return bound | self.binders(at, close + 1, bound)
        first = at + 1
        while first < close:
            last = self.first(first, close, ",")
            last = self.first(first, last, ";") if self.tokens[at].text == "{" else last
            self.terms(first + 2 if self.is_label(first, last) else first, last, bound)
            first = last + 1
        return bound

    def binders(self, at: int, end: int, bound: FrozenSet[str]) -> FrozenSet[str]:
        """The names that binders bind: `x`, `(x y : A)`, `{x : A}`, `(x, y)`; their types are read."""
        names: Set[str] = set()
        while at < end:
            after = self.after(at)
            if self.tokens[at].text in CLOSING:
                colon = self.first(at + 1, after - 1, ":")
                names |= self.binders(at + 1, colon, bound)
                self.terms(colon, after - 1, bound)
            elif self.tokens[at].is_name and not self.is_label(at, end):
                names.add(self.tokens[at].text)
            at = after
        return frozenset(names)

    def pattern(self, at: int, end: int) -> FrozenSet[str]:
        """The names that a pattern binds: all but constructors and operators, which are used."""
        names: Set[str] = set()
        for place in range(at, end):
            token = self.tokens[place]
            if not token.is_name or self.scope.is_constructor(token.text):
                self.name(place, NONE)
            elif not self.is_label(place, end):
                names.add(token.text)
        return frozenset(names)


class SpecScope:
    """What the names of a file of specs/ mean."""

    def __init__(self, repository: Repository, file: SpecFile) -> None:
        self.repository, self.file, self.path = repository, file, file.path

    def is_constructor(self, name: str) -> bool:
        imports = self.file.imports
        if name in self.file.constructors or name in imports.operators:
            return True
        found = imports.names.get(name)
        return found is not None and self.repository.is_constructor(found, self.path)

    def targets(self, token: Token) -> List[Target]:
        found = self.target(token)
        if not found and not is_built_in(token.text):
            raise Fault(self.path, token.line, f"nothing declares, imports or binds `{token.text}`")
        return [found] if found else []

    def target(self, token: Token) -> Optional[Target]:
        """What a name means that the file imports or declares."""
        name, _, rest = token.text.partition(".")
        name = name if name in self.file.imports.modules else self.file.imports.operators.get(name.replace(HOLE, ""), name)
        own = self.file.definitions.get(name) or self.file.constructors.get(name)
        return own or self.repository.imported(self.file.imports, name, rest, self.path, token.line)


def is_built_in(text: str) -> bool:
    return text in BUILT_IN or re.match(r'[\d"]', text) is not None


class Repository:
    """The crates of a repository: their files of specs/, and the types of their sources, each read at its first use."""

    def __init__(self, top: str) -> None:
        self.top = top
        self.crates = {os.path.basename(os.path.dirname(path)) for path in glob.glob(os.path.join(top, "crates", "*", "src"))}
        self.files: Dict[str, SpecFile] = {}
        self.sources: Dict[str, Source] = {}
        self.items: Dict[str, Dict[str, Item]] = {}
        self.rust_uses: Dict[str, Dict[str, List[str]]] = {}
        self.found: Dict[Definition, List[Target]] = {}

    # --- files

    def spec_file(self, crate: str, parts: List[str]) -> Optional[SpecFile]:
        """The file of a module of specs/, if it is there."""
        path = "/".join(["crates", crate, "specs", *parts]) + ".antt"
        if path not in self.files and os.path.isfile(os.path.join(self.top, path)):
            self.files[path] = SpecFile(crate, path, text_of(self.top, path))
        return self.files.get(path)

    def source(self, path: str) -> Source:
        if path not in self.sources:
            self.sources[path] = Source(path, text_of(self.top, path))
        return self.sources[path]

    def sources_of(self, crate: str) -> Iterator[Source]:
        paths = glob.glob(os.path.join(self.top, "crates", crate, "src", "**", "*.rt"), recursive=True)
        return (self.source(os.path.relpath(path, self.top)) for path in sorted(paths))

    # --- names

    def imported(self, imports: Imports, name: str, rest: str, path: str, line: int) -> Optional[Target]:
        """What a name, with the names after its dots, means by imports; nothing where none of them brings it."""
        if rest and name in imports.modules:
            module = imports.modules[name]
            return self.named(module.path, rest.split(".")[0], path, line)
        found = imports.names.get(name)
        return self.named(found.path, found.name, path, found.line) if found else None

    def named(self, module: str, name: str, path: str, line: int) -> Target:
        """The name of a module, which is used at a line of a file."""
        crate, *parts = module.split(".")
        if crate not in self.crates:
            return KitName(crate, module, name)
        parts = parts[1:] if parts[:1] == ["specs"] else parts
        if parts[:1] in (["declared"], ["contracts"]):
            return self.made(crate, parts, name, path, line)
        file, root = self.spec_file(crate, parts), self.spec_file(crate, ["Lib"])
        if file:
            found = file.definitions.get(name) or file.constructors.get(name)
            if found:
                return found
            if name in file.imports.passed:
                return self.named(file.imports.passed[name].path, file.imports.passed[name].name, file.path, file.imports.passed[name].line)
        elif root and parts and parts[0] in root.imports.passed:
            return self.named(".".join([root.imports.passed[parts[0]].path, *parts[1:]]), name, path, line)
        raise Fault(path, line, f"there is no {module}.{name}")

    def is_constructor(self, found: Import, path: str) -> bool:
        """Whether an imported name is one of the constructors of a type, or a variant."""
        crate = found.path.split(".")[0]
        if crate not in self.crates:
            return not found.name[0].islower() or found.name in CONSTRUCTORS
        target = self.named(found.path, found.name, path, found.line)
        return ".TheVariants" in found.path or (isinstance(target, Definition) and target.name != found.name)

    # --- types of Rust

    def made(self, crate: str, parts: List[str], name: str, path: str, line: int) -> Item:
        """What Rattle makes of a type or a constant, by its path after `specs`: `declared.MODULE.TYPE` with `TheVariants`, or
        `contracts.MODULE.TYPE`, to whose name that of a trait may be joined."""
        for count in range(len(parts) - 1, -1, -1):
            file = "/".join(["crates", crate, "src", *(parts[1:count + 1] or ["lib"])]) + ".rt"
            if os.path.isfile(os.path.join(self.top, file)):
                owner, *more = [*parts[count + 1:], name]
                wanted = name if owner == "TheConstants" else owner
                item = self.item(file, wanted) or (self.item_of_trait(file, owner) if parts[0] == "contracts" else None)
                if item and (more[:1] != ["TheVariants"] or re.search(rf"\b{re.escape(name)}\b", "\n".join(item.code))):
                    return item
                break
        raise Fault(path, line, f"no source has {'.'.join([crate, 'specs', *parts, name])}")

    def item_of_trait(self, file: str, joined: str) -> Optional[Item]:
        """The type that begins a name which ends with that of a trait."""
        names = (joined[:count] for count in range(len(joined) - 1, 0, -1))
        return next((item for item in (self.item(file, name) for name in names) if item), None)

    def item(self, path: str, name: str) -> Optional[Item]:
        """The type, trait or constant of a source, if it has one of this name."""
        if path not in self.items:
            source = self.source(path)
            self.items[path] = {}
            for at, (first, second) in enumerate(zip(source.tokens, source.tokens[1:])):
                if first.text in ITEMS and second.text.isidentifier():
                    self.items[path].setdefault(second.text, item_at(source, at))
        return self.items[path].get(name)

    def uses_of(self, path: str) -> Dict[str, List[str]]:
        """The names that the `use` lines of Rust bring into a source, each with its path."""
        if path not in self.rust_uses:
            self.rust_uses[path] = dict(uses_in(self.source(path)))
        return self.rust_uses[path]

    def item_of(self, crate: str, path: List[str]) -> Optional[Union[Item, KitName]]:
        """The type, trait or constant of a path of Rust in a crate: of the module that it names, or that its crate passes on, else of the
        one file of the crate that has it."""
        root, name = path[0], path[-1]
        if root in self.crates:
            return self.item_of(root, ["crate", *path[1:]])
        modules = path[1:-1] if root in ("crate", "self", "super") else path[:-1]
        folder = os.path.join(self.top, "crates", crate, "src")
        if modules and not glob.glob(os.path.join(folder, modules[0] + "*")):
            return KitName(root, "::".join(path[:-1]), name)
        file = "/".join(["crates", crate, "src", *(modules or ["lib"])]) + ".rt"
        is_there = os.path.isfile(os.path.join(self.top, file))
        passed = self.uses_of(file).get(name) if is_there else None
        found = self.item(file, name) if is_there else None
        if not found and passed and passed != path:
            return self.item_of(crate, passed)
        everywhere = [] if found else [item for item in (self.item(other.file, name) for other in self.sources_of(crate)) if item]
        return found or (everywhere[0] if len(everywhere) == 1 else None)

    # --- what a definition uses

    def uses(self, definition: Definition) -> List[Target]:
        """What a definition uses, each once, in the order in which it comes; itself apart."""
        if definition not in self.found:
            found: Dict[Target, None] = {}
            Pieces(definition, SpecScope(self, definition.file), found).read()
            found.pop(definition, None)
            self.found[definition] = list(found)
        return self.found[definition]


class ClauseScope:
    """What the names of a function's clauses mean: imports by `ghost use`, types and constants of Rust, the members of a trait."""

    def __init__(self, repository: Repository, source: Source, function: Function) -> None:
        self.repository, self.source, self.path = repository, source, source.file
        self.imports = imports_at(source, function.line)
        self.uses = repository.uses_of(source.file)
        tokens = source.tokens
        outer = next((at for at in range(function.place, -1, -1) if tokens[at].text in ("impl", "trait")
                      and end_of_group(tokens, find(tokens, at, ("{", ";"))) > function.place), -1)
        heads = [head_of(tokens, at) for at in (outer, function.place) if at >= 0]
        self.bounds = {name: bounds for head in heads for name, bounds in bounds_of(head).items()}
        named = {name for head in heads for name, mark in zip(head, head[1:]) if mark == ":"}
        self.bound = frozenset({*named, "self", "result"} - {*self.bounds})
        self.trait = tokens[outer + 1].text if outer >= 0 and tokens[outer].text == "trait" else ""

    def is_constructor(self, name: str) -> bool:
        return name in self.imports.operators or name in self.imports.names

    def targets(self, token: Token) -> List[Target]:
        name, _, rest = token.text.partition(".")
        name = name if name in self.imports.modules else self.imports.operators.get(name.replace(HOLE, ""), name)
        found = self.repository.imported(self.imports, name, rest, self.path, token.line)
        names = [] if found else self.bounds.get(name, [name])
        items = [item for item in map(self.item, names) if item]
        if not found and not items and name not in self.bounds and not is_built_in(name) and name not in IN_CLAUSES:
            raise Fault(self.path, token.line, f"nothing declares, imports or binds `{token.text}`")
        return [found] if found else [*items]

    def item(self, name: str) -> Optional[Union[Item, KitName]]:
        """The item of Rust that a name means; of a member of the trait that the function is in, the trait."""
        trait = self.repository.item(self.path, self.trait) if self.trait else None
        if trait and re.search(rf"\bghost {re.escape(name)}\b", "\n".join(trait.code)):
            return trait
        found = self.repository.item(self.path, name)
        return found or (self.repository.item_of(self.source.crate, self.uses[name]) if name in self.uses else None)


def imports_at(source: Source, line: int) -> Imports:
    """What the `ghost use` lines bring that are at the head of a file, or in the block that a line is in."""
    inner: List[Tuple[int, str]] = []
    outer: List[Tuple[int, str]] = []
    for number, text in enumerate(source.text.split("\n"), 1):
        if text.startswith("}") and number < line:
            inner = []
        if text.lstrip().startswith("ghost use ") and (text.startswith("ghost") or number < line):
            (outer if text.startswith("ghost") else inner).append((number, text.strip()[len("ghost "):]))
    imports = Imports()
    for number, text in outer + inner:
        imports.add(source.file, number, text)
    return imports


def head_of(tokens: List[RustToken], at: int) -> List[str]:
    """The tokens of a function, an `impl` or a trait from its word up to its clauses or its block."""
    return [token.text for token in tokens[at:find(tokens, at, ("{", ";", "requires", "ensures"))]]


def bounds_of(head: List[str]) -> Dict[str, List[str]]:
    """The type parameters of a function, an `impl` or a trait, each with the names that its bounds have: in angles after the name, and
    after `where`."""
    start = 1 if head[0] == "impl" else 2
    depths = list(itertools.accumulate((text == "<") - (text == ">") for text in head[start:]))
    end = start + depths.index(0) if head[start:start + 1] == ["<"] and 0 in depths else start
    after = head.index("where") + 1 if "where" in head else len(head)
    found: Dict[str, List[str]] = {}
    for part in [*split(head[start + 1:end]), *split(head[after:])]:
        names = [text for text in part if text.isidentifier() and text != "const"]
        if names:
            found.setdefault(names[0], []).extend(names[1:])
    return found


class Statement(NamedTuple):
    """A function with the clauses that were chosen, and what they name."""

    function: Function
    source: Source
    clauses: List[Clause]
    targets: List[Target]

    @property
    def signature(self) -> str:
        """The text of the function before its clauses."""
        tokens, start = self.source.tokens, self.function.place
        return self.source.text[tokens[start].start:tokens[find(tokens, start, ("{", ";", "requires", "ensures"))].start].rstrip()


def statement_of(repository: Repository, source: Source, function: Function, names: List[str]) -> Statement:
    """A function with its clauses of some names, or with all of them."""
    scope = ClauseScope(repository, source, function)
    clauses = [clause for clause in function.clauses if not names or clause.name in names]
    found: Dict[Target, None] = {}
    for clause in clauses:
        walk = Walk(tokens_of(Piece(clause.line, clause.text)), scope, found)
        walk.terms(0, len(walk.tokens), scope.bound)
    return Statement(function, source, clauses, list(found))


class Pieces:
    """Reads the pieces of a definition."""

    def __init__(self, definition: Definition, scope: SpecScope, found: Dict[Target, None]) -> None:
        self.definition, self.scope, self.found = definition, scope, found

    def walk(self, piece: Piece) -> Walk:
        return Walk(tokens_of(piece), self.scope, self.found)

    def read(self) -> None:
        """Reads the heads of the modules, then the definition's own pieces, of a lemma the first alone."""
        bound = NONE
        for head in self.definition.context:
            walk = self.walk(head)
            bound = walk.terms(2, len(walk.tokens) - 1, bound)
        first, *others = self.definition.pieces
        walk = self.walk(first)
        start = next(at for at, token in enumerate(walk.tokens) if token.text == self.definition.name) + 1
        has_fields = self.definition.kind in ("record", "data")
        inner = walk.terms(start, len(walk.tokens) - has_fields, bound)
        if has_fields:
            self.fields(others, inner)
        elif not self.definition.kind:
            for piece in others:
                self.clause(piece, bound)

    def fields(self, pieces: List[Piece], bound: FrozenSet[str]) -> None:
        """Reads fields, each of which those after it may name, or constructors."""
        for piece in pieces:
            walk = self.walk(piece)
            colon = walk.place(0, len(walk.tokens), ":")
            walk.terms(colon + 1, len(walk.tokens), bound)
            if self.definition.kind == "record":
                bound |= {walk.tokens[colon - 1].text}

    def clause(self, piece: Piece, bound: FrozenSet[str]) -> None:
        """Reads a clause; a line of the definitions that are open in it is none."""
        walk = self.walk(piece)
        if walk.tokens[0].text != "unfolding":
            equals = walk.place(0, len(walk.tokens), "=")
            is_named = walk.tokens[0].text == self.definition.name
            walk.terms(equals + 1, len(walk.tokens), bound | walk.pattern(int(is_named), equals))


def split(tokens: List[str]) -> Iterator[List[str]]:
    """What is between the commas that are in no brackets."""
    part: List[str] = []
    depth = 0
    for token in tokens:
        depth += DEPTHS.get(token, 0)
        if token == "," and not depth:
            yield part
            part = []
        else:
            part.append(token)
    yield part


def paths_of(tokens: List[str], before: List[str]) -> Iterator[Tuple[str, List[str]]]:
    """The names that what follows a `use` of Rust brings, each with its path."""
    for part in split(tokens):
        stop = next((at for at, token in enumerate(part) if token in ("{", "as")), len(part))
        path = before + [token for token in part[:stop] if token != "::"]
        if part[stop:stop + 1] == ["{"]:
            yield from paths_of(part[stop + 1:-1], path)
        elif part:
            yield part[-1], path


def uses_in(source: Source) -> Iterator[Tuple[str, List[str]]]:
    """The names that the `use` lines of Rust bring into a source, each with its path."""
    texts = [token.text for token in source.tokens]
    for at, text in enumerate(texts):
        if text == "use" and texts[at - 1:at] != ["ghost"]:
            yield from paths_of(texts[at + 1:find(source.tokens, at, (";",))], [])


def item_at(source: Source, at: int) -> Item:
    """The item whose word, as `struct`, is at a place of a source, with the comments and attributes before it."""
    tokens, lines = source.tokens, source.lines
    stop = find(tokens, at, ("{", ";"))
    end = end_of_group(tokens, stop) if stop < len(tokens) and tokens[stop].text in OPENS else stop + 1
    first = tokens[at].line
    while first > 1 and re.match(r"\s*(///|#\[)", lines[first - 2]):
        first -= 1
    return Item(source.crate, source.file, tokens[at].line, tokens[at + 1].text, tuple(lines[first - 1:tokens[end - 1].line]))
