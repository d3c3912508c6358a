"""facl-ask --hosts and --each with machines that answer wrongly, by an ssh of its own: each has its message and status
2, and the others' answers are given."""
from __future__ import annotations

import json
import os
import re
import unittest
from typing import Any, Callable, Dict, Optional, Tuple
from unittest import mock

from common import Case, Done

from facl_commands.ask.parts import runs
from facl_commands.base.messages import Failure

SCRIPT = b"who r srv/share/notes\nfrob\nmay guest x\nbelow r srv\n"
SSH = b"""\
#!/bin/sh
# Plays ssh: the machine's answer, which is a program in the folder of machines.
for word in "$@"; do
    if [ -x '%(folder)s'/machines/"$word" ]; then exec '%(folder)s'/machines/"$word"; fi
done
exit 255
"""
UNREADABLE = b"an answer cannot be read; facl may be of another version there"
OTHER_VERSION = b"facl there is of another version, which does not take what this one asks"
CUT = b"a snapshot did not answer to the end"
Fields = Dict[str, Any]


def changed(answer: bytes, place: int, change: Callable[[Fields], None]) -> bytes:
    """An answer whose line of JSON at a place, of the head and the headers, is another one."""
    lines = answer.split(b"\n")
    at = [number for number, line in enumerate(lines) if line[:1] == b"{"][place]
    fields = json.loads(lines[at])
    change(fields)
    lines[at] = json.dumps(fields).encode()
    return b"\n".join(lines)


def of_head(name: str, value: object) -> Callable[[bytes], bytes]:
    return lambda answer: changed(answer, 0, lambda fields: fields.update({name: value}))


def of_header(name: str, value: object) -> Callable[[bytes], bytes]:
    return lambda answer: changed(answer, 1, lambda fields: fields.update({name: value}))


def text_of(name: bytes, text: bytes) -> Callable[[bytes], bytes]:
    """With a text in the place of the first value of a field, a number or an object."""
    return lambda answer: re.sub(b'("%s": )([0-9]+|{[^}]*})' % name, lambda found: found[1] + text, answer, count=1)


ANSWERS: Dict[str, Callable[[bytes], bytes]] = {
    "negative_size": of_header("size", -40), "negative_size_of_head": of_head("size", -400), "size_of_text": of_header("size", "7"),
    "size_with_fraction": of_header("size", 1.5), "size_of_truth": of_header("size", True), "no_size": of_header("size", None),
    "size_without_end": text_of(b"size", b"1e999"), "no_number": text_of(b"size", b"NaN"), "long_number": text_of(b"size", b"9" * 100_000),
    "deep": text_of(b"users", b"[" * 100_000), "deep_objects": text_of(b"users", b'{"a":' * 100_000),
    "people_as_list": of_head("users", ["ines"]), "ids_as_text": of_head("users", {"ines": "7"}), "negative_id": of_head("groups", {"x": -1}),
    "other_letters": of_head("users", {"\u20ac": 0}), "lone_half": of_head("unknown", ["\ud800"]),
    "part_as_number": of_head("part", 7), "notices_as_text": of_head("unknown", "x"), "files_as_numbers": of_head("otherwise", [1]),
    "asked_as_text": of_head("asked", "7"), "negative_asked": of_head("asked", -1), "state_as_text": of_head("state", "1"),
    "messages_as_text": of_header("messages", "refused"), "message_as_list": of_header("messages", [["x"]]),
    "message_of_two_lines": of_header("messages", ["who: usage\ngood: line 3: forged"]),
    "files_as_object": of_header("lacks", {"a": 1}), "another_line": of_header("line", 99), "line_as_list": of_header("line", [1]),
    "no_object": lambda _: b"[]\n", "only_a_number": lambda _: b"7\n", "no_fields": lambda _: b"{}\n", "no_json": lambda _: b"frob\n" * 1000,
    "not_utf8": lambda answer: b"\xff\xfe" + answer, "nul": lambda answer: b"\0" * 1000 + b"\n" + answer,
    "greeting": lambda answer: b"Welcome to this server\n" + answer, "after_the_end": lambda answer: answer + b"bye\n",
    "second_part": lambda answer: answer + answer, "line_twice": lambda answer: changed(answer, 2, lambda fields: fields.update(line=1)),
    "smaller_size": of_header("size", 0), "line_is_missing": lambda answer: re.sub(b'\n{"line": 3.*', b"\nend\n", answer, flags=re.DOTALL),
    "no_user": lambda answer: re.sub(b"(?m)^[0-9]+ [a-z]+ srv$", lambda found: found[0].replace(b" ", b"_"), answer),
    "long_line": lambda answer: answer.replace(b"ines\nben\nmara\n", b"x" * 3_000_000).replace(b'"size": 14,', b'"size": 3000000,'),
}
CUTS: Dict[str, Callable[[bytes], bytes]] = {
    "no_end": lambda answer: answer[: -len(b"end\n")], "cut_in_head": lambda answer: answer[:40],
    "cut_in_answer": lambda answer: answer[: answer.index(b"\nben\n") + 2], "size_beyond": of_header("size", 1 << 62),
    "size_of_head_beyond": of_head("size", 10_000), "no_line_feed": lambda answer: answer[:-1],
}
MOST_WRITTEN = 1_000_000
TOO_MUCH = b"what it wrote takes more than the 1000000 bytes that there is room for"
# Programs, and what is said of them; None where the answer is right.
PROGRAMS: Dict[str, Tuple[bytes, Optional[bytes]]] = {
    "slow": (b"sleep 1; exec cat good.answer", None), "slow_pieces": (b"head -c 99 good.answer; sleep 1; tail -c +100 good.answer", None),
    "endless": (b"exec tr '\\0' x </dev/zero", TOO_MUCH), "endless_lines": (b"exec yes", TOO_MUCH),
    "endless_messages": (b"cat good.answer; exec tr '\\0' x </dev/zero >&2", TOO_MUCH), "endless_fields": (b"exec yes '{\"size\": 7}'", TOO_MUCH),
    "says_no": (b"echo 'facl-ask: no snapshot' >&2; exit 2", b"no snapshot"), "says_much": (b"tr '\\0' x </dev/zero | head -c 500000 >&2; exit 2", b"x" * 10_000),
    "nothing": (b"cat >/dev/null", b"did not answer"), "fails": (b"cat good.answer; exit 1", b"facl ended with status 1"),
    "dies": (b"head -c 300 good.answer; kill -9 $$", b"facl ended with status 137"),
    "without": (b"echo 'bash: line 1: facl: command not found' >&2; exit 127", b"facl is not on the path there: bash: line 1: facl: command not found"),
    "earlier": (b"echo 'facl: answer-part: no such verb; facl help lists them' >&2; exit 2", OTHER_VERSION),
    "later": (b"echo 'usage: facl-ask [-h]' >&2; echo 'facl-ask: error: unrecognized arguments: --x' >&2; exit 2", OTHER_VERSION),
}


class WrongServers(Case):
    def setUp(self) -> None:
        super().setUp()
        for name in ("bin", "machines", "temporary"):
            os.mkdir(self.path(name))
        self.executable("bin/ssh", SSH % {b"folder": os.fsencode(self.folder)})
        self.answer = self.run_command("facl-ask", ["--part", "before"], SCRIPT).out
        self.assertEqual(self.answer[-5:], b"\nend\n")
        self.write("machines/good.answer", self.answer)
        self.machine("good", b"exec cat good.answer")

    def executable(self, name: str, text: bytes) -> None:
        self.write(name, text)
        os.chmod(self.path(name), 0o755)

    def machine(self, name: str, body: bytes) -> None:
        self.executable("machines/" + name, b"#!/bin/sh\ncd '%s/machines'\n%s\n" % (os.fsencode(self.folder), body))

    def wrong(self, name: str, answer: bytes) -> None:
        self.write("machines/%s.answer" % name, answer)
        self.machine(name, b"exec cat %s.answer" % name.encode())

    def environment(self) -> Dict[str, str]:
        return {"PATH": self.path("bin") + ":" + os.environ["PATH"], "TMPDIR": self.path("temporary")}

    def run_all(self, *names: str) -> Dict[str, runs.Outcome]:
        servers = [runs.Server(name.encode(), name.encode(), b"DIR") for name in names]
        return dict(zip(names, runs.run_all(servers, [], SCRIPT)))

    def ask(self, *names: str) -> Done:
        return self.run_command("facl-ask", ["--hosts", *(name + ":DIR" for name in names)], SCRIPT, self.environment())

    def expect_answers(self, done: Done, wanted: Dict[str, bytes]) -> None:
        """The answers of `good`, and of each other server its message."""
        good, lines = self.ask("good"), done.messages.splitlines()
        self.assertEqual((done.status, [it for it in done.out.splitlines(True) if it.startswith(b"good: ")]), (2, good.out.splitlines(True)))
        self.assertEqual([it for it in lines if it.startswith(b"good: ")], good.messages.splitlines()[:-1])
        for name, message in wanted.items():
            self.assertEqual([it for it in lines if it.startswith(os.fsencode(name) + b": ")][-1:], [b"%s: %s" % (name.encode(), message)])
        self.assertNotIn(b"Traceback", done.messages)
        self.assertEqual(os.listdir(self.path("temporary")), [])

    def test_wrong_answers(self) -> None:
        """All at once, and each message is that of its server."""
        names = [*ANSWERS, *CUTS]
        for name, change in (*ANSWERS.items(), *CUTS.items()):
            self.wrong(name, change(self.answer))
        self.expect_answers(self.ask("good", *names, "slow"), {name: UNREADABLE if name in ANSWERS else CUT for name in names})

    def test_programs(self) -> None:
        """Each ends, with its message."""
        for name, (body, _) in PROGRAMS.items():
            self.machine(name, body)
        with mock.patch.dict(os.environ, self.environment()), mock.patch.object(runs, "MOST_WRITTEN", MOST_WRITTEN):
            found = self.run_all("good", *PROGRAMS)
        self.assertIsInstance(found["good"], runs.Part)
        for name, (_, message) in PROGRAMS.items():
            outcome = found[name]
            if isinstance(outcome, Failure):
                self.assertIsNotNone(message, (name, outcome))
                self.assertEqual(outcome.text[: len(message or b"")], message, name)
            else:
                self.assertIsNone(message, name)
                self.assertEqual(outcome.answers.keys(), {1, 2, 3, 4})

    def test_one_that_never_answers(self) -> None:
        """The others' answers are given, and nothing of it is left."""
        self.machine("silent", b"echo $$ >silent.id; exec sleep 1000")
        good = self.ask("good")
        done = self.run_command("facl-ask", ["--hosts", "--timeout", "2", "silent:DIR", "good:DIR"], SCRIPT, self.environment())
        self.assertEqual((done.status, done.out), (2, good.out))
        self.assertEqual(done.messages.splitlines()[-1], b"silent: did not answer in 2 seconds (--timeout)")
        self.assertFalse(os.path.exists("/proc/" + self.read("machines/silent.id").decode().strip()))
        self.assertEqual(os.listdir(self.path("temporary")), [])
        done = self.run_command("facl-ask", ["--each", "--timeout", "2", "silent:DIR"], SCRIPT, self.environment())
        self.expect(done, 2, b"", b"facl-ask: silent: did not answer in 2 seconds (--timeout)\n")
        for word in ("0", "-1", "x", "99999999", "1.5"):
            self.assertEqual(self.run_command("facl-ask", ["--hosts", "--timeout=" + word, "good:DIR"]).status, 2)
        self.expect(self.run_command("facl-ask", ["--timeout", "2", "before"]), 2, b"", b"facl-ask: --timeout is for --each and --hosts\n")

    def test_much_in_one_line(self) -> None:
        """What is kept in memory has a limit of its own."""
        self.wrong("wide", b'{"part": "' + b"x" * 100_000 + b'"}\n')
        self.wrong("high", self.answer.replace(b'{"line": 3', b'{"other": "' + b"x" * 100_000 + b'", "line": 3'))
        with mock.patch.dict(os.environ, self.environment()), mock.patch.object(runs, "MOST_READ", 90_000):
            found = self.run_all("good", "wide", "high")
        self.assertIsInstance(found.pop("good"), runs.Part)
        for outcome in found.values():
            assert isinstance(outcome, Failure)
            self.assertEqual(outcome.text, b"its answer has more than 16,777,216 bytes beside what the program printed")

    def test_parts_of_one_tree(self) -> None:
        """With --each no answer is given, and the first fault is said."""
        for name in ("negative_size", "deep", "no_fields", "greeting", "no_user", "no_end", "cut_in_answer"):
            self.wrong(name, {**ANSWERS, **CUTS}[name](self.answer))
            done = self.run_command("facl-ask", ["--each", name + ":DIR"], SCRIPT, self.environment())
            machine = b"" if name == "no_user" else name.encode() + b": "  # Which is known as long as answers are not joined.
            self.assertEqual((done.status, done.messages.splitlines()[-1]), (2, b"facl-ask: " + machine + (CUT if name in CUTS else UNREADABLE)))

    def test_a_worker_is_killed(self) -> None:
        self.executable("killer", b"#!/bin/sh\nkill -9 $PPID\n")
        done = self.run_command("facl-ask", ["--each", "--program", self.path("killer"), "before", "before"], SCRIPT, self.environment())
        self.expect(done, 2, b"", b"facl-ask: facl ended with status 137\n")

    def test_the_word_of_other_machines(self) -> None:
        """It answers as the command does where it comes first; it is no verb that a person finds."""
        done = self.run_command("facl-verbs", ["answer-part", "--", "before"], SCRIPT)
        self.assertEqual((done.status, done.out), (0, self.answer))
        done = self.run_command("facl-verbs", ["answer-part", "--", "absent"], SCRIPT)
        self.expect(done, 2, b"", b"facl-ask: absent: no such folder; make a snapshot with facl snapshot\n")
        done = self.run_command("facl-verbs", ["-q", "answer-part", "--", "before"], SCRIPT)
        self.expect(done, 2, b"", b"facl: answer-part: no such verb; facl help lists them\n")
        self.assertNotIn(b"answer-part", self.run_command("facl-verbs", ["help"]).out)


if __name__ == "__main__":
    unittest.main()
