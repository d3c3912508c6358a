"""Which module of the commands imports which: no package needs one above it, and facl-apply needs no program. Each class has
a name of its own."""
from __future__ import annotations

import ast
import re
import unittest
from collections import Counter
from pathlib import Path
from typing import Dict, Iterator, List, Set, Tuple

from common import COMMANDS

TOP = Path(COMMANDS, "facl_commands")
# What the modules of a package may import beside their own package: packages, and one module by its whole name.
QUESTION = ("base", "program", "model")
ALLOWED: Dict[str, Tuple[str, ...]] = {
    "base": (), "program": ("base",), "model": ("base", "program"), "planned": ("base",), "ask": ("base", "program", "model"),
    "plan": ("base", "program", "model", "planned"), "page": ("base", "program", "model", "plan"),
    "questions.who": QUESTION, "questions.check": QUESTION,
    "questions.diff": (*QUESTION, "page"), "questions.audit": (*QUESTION, "page"),
    "apply": ("base", "planned", "model.meta"), "daily": ("base",), "snapshot": ("base",), "jobs": ("base", "program", "model"),
    # It starts commands by their names.
    "verbs": (*QUESTION, "jobs", "daily.folder", "daily.text", "questions.audit.findings", "questions.who.asking",
              "snapshot.recording", "snapshot.target"),
}
Imports = Dict[str, Set[str]]  # By the name of a module: the modules that it imports, also late ones in functions.


def imported(name: str, text: str, known: Set[str]) -> Iterator[str]:
    """The modules of ours that a module imports; the package itself, which has the version alone, is none."""
    for node in ast.walk(ast.parse(text)):
        if isinstance(node, ast.Import):
            froms = [alias.name.split(".") for alias in node.names]
        elif isinstance(node, ast.ImportFrom):
            above = ["facl_commands", *name.split(".")][: -node.level] if node.level else []
            package = above + (node.module.split(".") if node.module else [])
            froms = [[*package, alias.name] for alias in node.names]
        else:
            continue
        for words in froms:
            names = [".".join(words[1:end]) for end in range(2, len(words) + 1) if words[0] == "facl_commands"]
            yield from [it for it in names if it in known][-1:]


def imports_of(texts: Dict[str, str]) -> Imports:
    return {name: set(imported(name, text, set(texts))) for name, text in texts.items()}


def package_of(name: str) -> str:
    """The package that a module is of; each command of questions has one."""
    return ".".join(name.split(".")[: 2 if name.startswith("questions.") else 1])


def reached(start: Set[str], imports: Imports) -> Set[str]:
    found, rest = set(start), list(start)
    while rest:
        new = imports[rest.pop()] - found
        found |= new
        rest += new
    return found


def faults_of(imports: Imports, commands: Set[str]) -> List[str]:
    """What is wrong in the imports; `commands` are the modules that files of commands start."""
    pairs = [(name, other) for name, others in sorted(imports.items()) for other in sorted(others)]
    faults = [f"{name} imports {other}" for name, other in pairs
              if not {package_of(other), other} & {package_of(name), *ALLOWED[package_of(name)]}]
    faults += [f"{name} imports the command {other}" for name, other in pairs if other in commands]
    faults += [f"{name} needs itself" for name in imports if name in reached(imports[name], imports)]
    packages: Imports = {package_of(name): set() for name in imports}
    for name, other in pairs:
        packages[package_of(name)] |= {package_of(other)} - {package_of(name)}
    faults += [f"{one} and {other} need each other" for one in sorted(packages) for other in sorted(packages)
               if one < other and other in reached({one}, packages) and one in reached({other}, packages)]
    needed = reached({name for name in imports if package_of(name) == "apply"}, imports)
    return faults + [f"facl-apply needs {name}" for name in sorted(needed) if name.split(".")[0] in ("program", "questions")]


def texts() -> Dict[str, str]:
    """The modules by their names."""
    return {".".join(path.relative_to(TOP).with_suffix("").parts): path.read_text("utf-8") for path in TOP.rglob("*.py")
            if path.name != "__init__.py"}


def commands_of() -> Set[str]:
    """The modules that the files of commands/ start."""
    found: Set[str] = set()
    for path in Path(COMMANDS).glob("facl-*"):
        its = re.findall(r"^from facl_commands\.([\w.]+) import (\w+)", path.read_text("utf-8"), re.MULTILINE)
        found |= {".".join(words) for words in its if words != ("base", "messages")}
    return found


# A module, an import that is wrong there, and what is said of it.
WRONG: List[Tuple[str, str, str]] = [
    ("base.names", "from ..model import meta", "base.names imports model.meta"),
    ("model.records", "def late():\n    from ..plan.chown import restoring", "model.records imports plan.chown"),
    ("apply.carrying", "from ..program.session import Session", "apply.carrying imports program.session"),
    ("planned.plan_files", "from facl_commands.model import people", "planned.plan_files imports model.people"),
    ("model.meta", "from ..program import session", "facl-apply needs program.session"),
    ("page.data", "from ..plan.command import body", "page.data imports the command plan.command"),
    ("questions.who.answers", "from ..diff import states", "questions.who.answers imports questions.diff.states"),
    ("base.trusted", "from .new_file import NewFile", "base.trusted needs itself"),
    ("plan.report", "import facl_commands.page.tree", "page and plan need each other"),
]


class Layers(unittest.TestCase):
    def setUp(self) -> None:
        self.texts = texts()
        self.imports = imports_of(self.texts)

    def test_what_modules_import(self) -> None:
        self.assertEqual(faults_of(self.imports, commands_of()), [])

    def test_commands_are_known(self) -> None:
        self.assertEqual(len(commands_of()), len(list(Path(COMMANDS).glob("facl-*"))))
        self.assertLess(commands_of(), set(self.texts))

    def test_packages_import_nothing(self) -> None:
        """Python runs `__init__.py` of a package before each module of it, which `imports_of` does not read."""
        found = {path.parent: ast.parse(path.read_text("utf-8")) for path in TOP.rglob("__init__.py")}
        self.assertEqual(set(found), {path.parent for path in TOP.rglob("*.py")})
        for folder, tree in found.items():
            self.assertFalse([node for node in ast.walk(tree) if isinstance(node, (ast.Import, ast.ImportFrom))], str(folder))

    def test_each_class_has_its_name_alone(self) -> None:
        names = Counter(node.name for text in self.texts.values() for node in ast.walk(ast.parse(text))
                        if isinstance(node, ast.ClassDef))
        self.assertEqual([name for name, number in names.items() if number > 1], [])

    def test_imports_that_are_wrong(self) -> None:
        for name, line, fault in WRONG:
            found = self.imports[name] | set(imported(name, line, set(self.texts)))
            self.assertIn(fault, faults_of({**self.imports, name: found}, commands_of()), name)
