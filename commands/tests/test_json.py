"""What verbs print for programs: it fits the schemas of commands/schemas, has one head, and one name for each file."""
from __future__ import annotations

import copy
import importlib
import json
import os
import unittest
from functools import partial
from typing import Any, Callable, Dict, Iterator, List, Optional, Tuple

from common import COMMANDS
from verb_case import DAY, VerbCase

SCHEMAS = os.path.join(COMMANDS, "schemas")
HEAD = "facl-head"
NOTES = "/srv/project/notes.txt"
LINES = (
    "who read,write,x", "who r / --alone --all-users --with-root", "who r %s" % NOTES, "user mara /", "files --owner mara",
    "files --naming guest", "files --owner 4711", "who-removes %s" % NOTES, "new-file /srv/project mara", "new-file /srv mara",
    "why mara %s" % NOTES, "why guest %s --alone" % NOTES, "diff old new", "diff old new --alone --below /srv",
    "audit", "audit --list set-user-id", "audit --accepted fine --all-users", "check rules", "check broken", "plan edits -o one",
    "plan edits --full -o two", "plan bad edits --keep-going -o three", "plan leaver -o four", "snapshots",
)
# Of two files one has a byte that is no UTF-8, the other one the four characters of its escape.
NAMES = (b"p\xe9q", rb"p\134351q")
WANTED = ["/srv/project/p\\134351q", "/srv/project/p\\351q"]
RECORD = b"# file: /srv/project/%s\n# owner: 1001\n# group: 100\nuser::rw-\ngroup::r--\nother::---\n\n"


def schemas() -> Dict[str, Any]:
    found = {}
    for name in os.listdir(SCHEMAS):
        with open(os.path.join(SCHEMAS, name), encoding="utf-8") as file:
            found[name[:-len(".json")]] = json.load(file)
    return found


def whole(value: Any, definitions: Dict[str, Any]) -> Any:
    """A schema with each definition of the head in its place."""
    if isinstance(value, list):
        return [whole(it, definitions) for it in value]
    if not isinstance(value, dict):
        return value
    if "$ref" in value:
        return whole(definitions[value["$ref"].rpartition("/")[2]], definitions)
    return {key: whole(it, definitions) for key, it in value.items()}


def faults_in(checker: Any, value: Any) -> List[str]:
    return [str(fault.message) for fault in checker.iter_errors(value)]


def validators() -> Optional[Dict[str, Callable[[Any], List[str]]]]:
    """By its name, what finds the faults of an object; None without jsonschema."""
    try:
        module = importlib.import_module("jsonschema")
    except ImportError:
        return None
    known = schemas()
    checkers = {name: module.Draft7Validator(whole(it, known[HEAD]["definitions"])) for name, it in known.items()}
    for it in checkers.values():
        it.check_schema(it.schema)
    return {name: partial(faults_in, it) for name, it in checkers.items()}


def texts_in(value: Any) -> Iterator[str]:
    """All texts of an object."""
    if isinstance(value, str):
        yield value
    for it in value.values() if isinstance(value, dict) else value if isinstance(value, list) else ():
        yield from texts_in(it)


def spoilt(value: Any) -> Iterator[Tuple[str, Any]]:
    """The object with a field more, without each of its fields, and with one of another type."""
    yield "a field more", {**value, "more": 1}
    for key in value:
        yield "without " + key, {name: it for name, it in value.items() if name != key}
        yield "another " + key, {**value, key: 1.5}
    for key in ("snapshot", "options"):
        if key in value:
            other = copy.deepcopy(value)
            other[key]["more"] = True
            yield "more in " + key, other


class Json(VerbCase):
    def setUp(self) -> None:
        super().setUp()
        self.stored("new")
        self.stored("old", seconds=3 * DAY)
        dump = self.read("store/new/dump")
        self.write("store/new/dump", dump.replace(b"mask::r--", b"mask::rw-"))
        for name, text in (
                ("edits", b"setfacl -n -m u:guest:r /srv/project/notes.txt\nrm /srv/project/README\ncan mara /srv\n"),
                ("bad", b"frob\nsetfacl -d -m d:u:ben:r,u:ben:r /srv/project/drafts\n"), ("leaver", b"userdel mara\n"),
                ("rules", b"never guest read /srv/project/\n"), ("broken", b"never mara read /srv/project/\n"),
                ("fine", b"set-user-id /srv/project/ it is meant\nset-group-id /nowhere/ it is gone\n")):
            self.write(name, text)

    def object_of(self, words: str) -> Dict[str, Any]:
        done = self.verb(*words.split(), "--json")
        found: Dict[str, Any] = json.loads(done.out)
        return found

    def test_all_fit(self) -> None:
        faults_of = validators()
        if faults_of is None:
            self.skipTest("python3-jsonschema is not installed")
        seen = set()
        for words in LINES:
            with self.subTest(words):
                found = self.object_of(words)
                name = found["schema"].partition("/")[0]
                seen.add(name)
                number = "/2" if name == "facl-diff" else "/1"
                self.assertEqual((found["schema"], faults_of[name](found)), (name + number, []))
                for text, other in spoilt(found):
                    self.assertNotEqual(faults_of[name](other), [], text)
        self.assertEqual(seen, set(schemas()) - {HEAD})

    def test_one_head(self) -> None:
        wanted = self.object_of(LINES[0])["snapshot"]
        self.assertEqual((wanted["name"], wanted["path"], wanted["folders"]), ("new", os.path.join(self.store, "new"), ["/srv/project"]))
        for words in LINES:
            found = self.object_of(words)
            if words == "snapshots":
                continue
            self.assertEqual(list(found)[:5], ["schema", "version", "judge", "snapshot", "options"], words)
            self.assertEqual(found["snapshot"], wanted, words)
            self.assertEqual(found["options"]["along_paths"], "--alone" not in words, words)
        listed = self.object_of("snapshots")["snapshots"][0]
        self.assertEqual({key: listed[key] for key in wanted}, wanted)

    def test_names_of_files(self) -> None:
        self.write("store/new/dump", self.read("store/new/dump") + b"".join(RECORD % it for it in NAMES))
        for words in ("files --owner 1001", "who r /srv/project --alone", "why 1001 /srv/project/p\\134351q", "diff old new"):
            found = {it for it in texts_in(self.object_of(words)) if "351q" in it and it.startswith("/") and " " not in it}
            self.assertLessEqual(found, set(WANTED), words)
            if words.startswith("files"):
                self.assertEqual(sorted(found), WANTED)

    def test_fields_have_one_name(self) -> None:
        """A field that is a `path` everywhere is called so, and a number of files a `count`."""
        for name, schema in schemas().items():
            keys = json.dumps(schema).split('"')[1::2]
            self.assertEqual({"directory", "first", "mend", "folder_name", "records"} & set(keys), set(), name)


if __name__ == "__main__":
    unittest.main()
