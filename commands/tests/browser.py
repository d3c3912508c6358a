"""A small driver of headless Chromium over the devtools protocol, by pipes and without a network.

Chromium reads the messages from its descriptor 3 and writes them to 4, each ended by a NUL byte. It has a folder of its
own for what it keeps. A shell waits for it and removes this folder, also where the tests are killed: Chromium ends when
its pipes are closed.
"""
from __future__ import annotations

import base64
import contextlib
import fcntl
import json
import multiprocessing.util
import os
import select
import shutil
import signal
import subprocess
import tempfile
import time
import unittest
from typing import Any, Callable, Dict, Iterator, List, NamedTuple, Optional
from urllib.parse import quote

from common import restore_signals

Fields = Dict[str, Any]

CHROMIUM = shutil.which("chromium") or shutil.which("chromium-browser")
needs_chromium = unittest.skipUnless(CHROMIUM, "without chromium, which is not installed")

LIMIT = 120.0  # Seconds of a call, and of a condition that is waited for, where others have the processors.
LONGEST = 300.0  # Seconds until a page is there.
WORDS = (
    "--headless=new", "--remote-debugging-pipe", "--no-sandbox", "--disable-gpu", "--disable-dev-shm-usage",
    "--no-first-run", "--no-default-browser-check", "--no-pings", "--disable-background-networking",
    "--disable-component-update", "--disable-default-apps", "--disable-domain-reliability", "--disable-extensions",
    "--disable-sync", "--disable-breakpad", "--disable-crash-reporter", "--metrics-recording-only", "--mute-audio",
    "--no-proxy-server", "--host-resolver-rules=MAP * ~NOTFOUND", "--hide-scrollbars", "--lang=en",
    "--force-color-profile=srgb", "--font-render-hinting=none", "--allow-file-access-from-files",
)
# Of Input.dispatchKeyEvent: the bit of each key that is held.
HELD = {"Alt": 1, "Control": 2, "Meta": 4, "Shift": 8}
TEXTS = {"Enter": "\r", "Space": " "}
CODES = {"Enter": 13, "Tab": 9, "Escape": 27, "Space": 32, "End": 35, "Home": 36, "ArrowLeft": 37, "ArrowUp": 38,
         "ArrowRight": 39, "ArrowDown": 40, "Backspace": 8, "Delete": 46, "PageUp": 33, "PageDown": 34}


class Failed(Exception):
    """What the browser refused, or did not do in time."""


class Node(NamedTuple):
    """A node of the accessibility tree."""

    role: str
    name: str
    states: Fields  # As `expanded`, `level`, `focusable`.


def taking(reads: int, writes: int) -> Callable[[], None]:
    """What a child does before it becomes Chromium: it takes the descriptors as 3 and 4."""

    def take() -> None:
        restore_signals()
        high = [fcntl.fcntl(it, fcntl.F_DUPFD, 10) for it in (reads, writes)]
        for number, descriptor in zip((3, 4), high):
            os.dup2(descriptor, number)
            os.close(descriptor)

    return take


class Pipe:
    """The messages of a browser, there and back."""

    def __init__(self, reads: int, writes: int) -> None:
        self.reads, self.writes = reads, writes
        self.rest = b""
        self.number = 0
        self.events: List[Fields] = []

    def send(self, method: str, fields: Fields, session: Optional[str]) -> int:
        self.number += 1
        message = {"id": self.number, "method": method, "params": fields, **({"sessionId": session} if session else {})}
        text = json.dumps(message).encode() + b"\0"
        while text:
            text = text[os.write(self.writes, text) :]
        return self.number

    def receive(self, end: float) -> Fields:
        """The next message, which comes before a time of the clock."""
        while b"\0" not in self.rest:
            if not select.select([self.reads], [], [], max(0.0, end - time.monotonic()))[0]:
                raise Failed("the browser does not answer in time")
            piece = os.read(self.reads, 1 << 20)
            if not piece:
                raise Failed("the browser ended")
            self.rest += piece
        text, _, self.rest = self.rest.partition(b"\0")
        found: Fields = json.loads(text)
        return found

    def call(self, method: str, fields: Fields, session: Optional[str] = None, seconds: float = LIMIT) -> Fields:
        """What a call gives; events that come meanwhile are kept."""
        number, end = self.send(method, fields, session), time.monotonic() + seconds
        while True:
            message = self.receive(end)
            if message.get("id") == number:
                break
            self.events += [message] if "method" in message else []
        if "error" in message:
            raise Failed("%s: %s" % (method, message["error"].get("message")))
        found: Fields = message.get("result", {})
        return found

    def close(self) -> None:
        for descriptor in (self.reads, self.writes):
            with contextlib.suppress(OSError):
                os.close(descriptor)


def remove(folder: str) -> None:
    """Removes the folder of a browser that ended; a process of it that is about to end may still write there."""
    end = time.monotonic() + LIMIT
    while os.path.exists(folder) and time.monotonic() < end:
        shutil.rmtree(folder, ignore_errors=True)
        time.sleep(0.02)


class Browser:
    """A run of Chromium, which ends with the block that it is made for."""

    def __init__(self) -> None:
        if CHROMIUM is None:
            raise Failed("chromium is not installed")
        self.folder = tempfile.mkdtemp(prefix="facl-browser.")
        reads, its_writes = os.pipe()
        its_reads, writes = os.pipe()
        self.pipe = Pipe(reads, writes)
        words = [CHROMIUM, *WORDS, "--user-data-dir=" + self.folder, "about:blank"]
        environment = {**os.environ, "HOME": self.folder, "XDG_CONFIG_HOME": self.folder, "XDG_CACHE_HOME": self.folder,
                       "TMPDIR": self.folder, "DBUS_SESSION_BUS_ADDRESS": "disabled:"}
        try:
            self.run = subprocess.Popen(
                ["sh", "-c", '"$@"; rm -rf -- "$0"', self.folder, *words], stdin=subprocess.DEVNULL,
                stdout=subprocess.DEVNULL, stderr=subprocess.DEVNULL, env=environment, start_new_session=True,
                pass_fds=(3, 4), preexec_fn=taking(its_reads, its_writes))
        except BaseException:
            self.pipe.close()
            shutil.rmtree(self.folder, ignore_errors=True)
            raise
        finally:
            os.close(its_reads)
            os.close(its_writes)

    def __enter__(self) -> Browser:
        return self

    def __exit__(self, *_: object) -> None:
        self.close()

    def close(self) -> None:
        """Ends it, and waits until it is gone with its folder."""
        self.pipe.close()
        try:
            self.run.wait(5)
        except subprocess.TimeoutExpired:
            pass
        finally:
            with contextlib.suppress(ProcessLookupError):
                os.killpg(self.run.pid, signal.SIGKILL)
            self.run.wait()
            remove(self.folder)

    def page(self) -> Page:
        """A new page, of which all faults and requests are kept."""
        target = self.pipe.call("Target.createTarget", {"url": "about:blank"}, seconds=LONGEST)["targetId"]
        found = self.pipe.call("Target.attachToTarget", {"targetId": target, "flatten": True}, seconds=LONGEST)
        return Page(self.pipe, target, found["sessionId"])


SHARED: List[Browser] = []


def shared() -> Browser:
    """The browser of all tests of a process, which starts with the first one that asks and ends with the process.

    A process of a pool ends without what `atexit` has, but not without what multiprocessing has to finish.
    """
    if not SHARED:
        SHARED.append(Browser())
        multiprocessing.util.Finalize(None, SHARED[0].close, exitpriority=0)
    return SHARED[0]


class Page:
    """A page of the browser, at first an empty one."""

    def __init__(self, pipe: Pipe, target: str, session: str) -> None:
        self.pipe, self.target, self.session = pipe, target, session
        for domain in ("Page", "Runtime", "Log", "Network", "DOM", "Accessibility"):
            self.call(domain + ".enable")

    def call(self, method: str, **fields: Any) -> Fields:
        return self.pipe.call(method, fields, self.session)

    def close(self) -> None:
        self.pipe.call("Target.closeTarget", {"targetId": self.target})

    def events(self, *methods: str) -> List[Fields]:
        """What came so far of some events."""
        return [it["params"] for it in self.pipe.events if it.get("sessionId") == self.session and it["method"] in methods]

    # --- what is shown

    def open(self, file: str, fragment: str = "", seconds: float = LIMIT) -> Page:
        """Opens a file, and waits until it is loaded."""
        self.go("file://" + quote(file) + ("#" + fragment if fragment else ""), seconds)
        return self

    def go(self, address: str, seconds: float = LIMIT) -> None:
        """Goes to an address as written; one that differs from the present one in its fragment alone loads nothing."""
        before = len(self.events("Page.loadEventFired"))
        found = self.pipe.call("Page.navigate", {"url": address}, self.session, seconds)
        if found.get("errorText"):
            raise Failed("%s: %s" % (address, found["errorText"]))
        if "loaderId" in found:
            self.wait_until(lambda: len(self.events("Page.loadEventFired")) > before, "the page is loaded", seconds)

    def reload(self) -> None:
        before = len(self.events("Page.loadEventFired"))
        self.call("Page.reload")
        self.wait_until(lambda: len(self.events("Page.loadEventFired")) > before, "the page is loaded")

    def evaluate(self, expression: str) -> Any:
        """The value of an expression in the page, which is what JSON can say."""
        found = self.call("Runtime.evaluate", expression=expression, returnByValue=True, awaitPromise=True)
        if "exceptionDetails" in found:
            details = found["exceptionDetails"]
            raise Failed(details.get("exception", {}).get("description") or details["text"])
        return found["result"].get("value")

    def wait_until(self, is_so: Callable[[], object], what: str, seconds: float = LIMIT) -> None:
        end = time.monotonic() + seconds
        while not is_so():
            if time.monotonic() > end:
                raise Failed("not in time: " + what)
            self.evaluate("new Promise(done => setTimeout(done, 10))")

    def wait_for(self, expression: str, seconds: float = LIMIT) -> None:
        """Waits until an expression is true in the page."""
        self.wait_until(lambda: self.evaluate("!!(%s)" % expression), expression, seconds)

    def settle(self) -> None:
        """Waits until the page is drawn."""
        self.evaluate("new Promise(done => requestAnimationFrame(() => requestAnimationFrame(done)))")

    def texts(self, selector: str) -> List[str]:
        """The texts of what a selector finds."""
        found: List[str] = self.evaluate(
            "[...document.querySelectorAll(%s)].map(it => it.textContent)" % json.dumps(selector))
        return found

    # --- what a person does

    def press(self, *keys: str, held: str = "") -> Page:
        """Presses keys one after another; a key of one letter has its text."""
        for key in keys:
            text = TEXTS.get(key, key if len(key) == 1 else "")
            code = CODES.get(key, ord(key.upper()) if len(key) == 1 and key.isalnum() else 0)
            fields: Fields = {"key": " " if key == "Space" else key, "code": key, "windowsVirtualKeyCode": code,
                      "modifiers": HELD.get(held, 0)}
            written: Fields = {"text": text} if text and held not in ("Alt", "Control", "Meta") else {}
            self.call("Input.dispatchKeyEvent", type="keyDown" if text else "rawKeyDown", **fields, **written)
            self.call("Input.dispatchKeyEvent", type="keyUp", **fields)
        return self

    def type(self, text: str) -> Page:
        """Types a text letter by letter."""
        return self.press(*text)

    def insert(self, text: str) -> Page:
        """Enters a text at once, as from a clipboard."""
        self.call("Input.insertText", text=text)
        return self

    def shown_at(self, selector: str) -> Optional[List[float]]:
        """The middle of the first thing that a selector finds; None where it is not there now, or covered."""
        found = self.evaluate("""(() => { const it = document.querySelector(%s); if (!it) return null;
            it.scrollIntoView({block: 'nearest', behavior: 'instant'}); const box = it.getBoundingClientRect();
            const x = box.x + box.width / 2, y = box.y + box.height / 2, top = document.elementFromPoint(x, y);
            return [x, y, box.width > 0 && !!top && (it.contains(top) || top.contains(it))]; })()""" % json.dumps(selector))
        return [float(found[0]), float(found[1])] if found and found[2] else None

    def place_of(self, selector: str) -> List[float]:
        """The middle of the first thing that a selector finds, once that is shown, and at the same place at two looks: what
        was scrolled or drawn just before may move yet."""
        looks: List[Optional[List[float]]] = []

        def stands_still() -> bool:
            looks.append(self.shown_at(selector))
            return looks[-1] is not None and looks[-2:-1] == looks[-1:]

        self.wait_until(stands_still, "%s: is not there, covered, or moves" % selector)
        place = looks[-1]
        assert place is not None
        return place

    def click(self, selector: str) -> Page:
        """Clicks on the middle of the first thing that a selector finds."""
        x, y = self.place_of(selector)
        for kind in ("mousePressed", "mouseReleased"):
            self.call("Input.dispatchMouseEvent", type=kind, x=x, y=y, button="left", clickCount=1)
        return self

    def choose(self, selector: str, text: str) -> Page:
        """Chooses the option of a list that has this text."""
        self.evaluate("""(() => { const box = document.querySelector(%s);
            box.value = [...box.options].find(it => it.textContent === %s).value;
            for (const kind of ['input', 'change']) box.dispatchEvent(new Event(kind, {bubbles: true})); })()"""
                      % (json.dumps(selector), json.dumps(text)))
        return self

    # --- the screen and the paper

    def size(self, width: int, height: int = 900, scale: float = 1, is_phone: bool = False) -> Page:
        """The size of the window, in points."""
        self.call("Emulation.setDeviceMetricsOverride", width=width, height=height, deviceScaleFactor=scale,
                  mobile=is_phone)
        self.call("Emulation.setTouchEmulationEnabled", enabled=is_phone)
        return self

    def media(self, scheme: str = "light", motion: str = "no-preference", kind: str = "") -> Page:
        """Takes a colour scheme, whether movements are to be reduced, and `print` or `screen`."""
        features = [{"name": "prefers-color-scheme", "value": scheme}, {"name": "prefers-reduced-motion", "value": motion}]
        self.call("Emulation.setEmulatedMedia", media=kind, features=features)
        return self

    def picture(self, file: str, height: int = 0) -> None:
        """Writes what is shown as a PNG; with a height, so much of the page from its top on."""
        box: Fields = {"clip": {"x": 0, "y": 0, "width": self.evaluate("innerWidth"), "height": height, "scale": 1}}
        found = self.call("Page.captureScreenshot", format="png", **(box if height else {}))
        with open(file, "wb") as made:
            made.write(base64.b64decode(found["data"]))

    def pdf(self) -> bytes:
        """The page as it is printed."""
        found = self.call("Page.printToPDF", printBackground=True, preferCSSPageSize=True)
        return base64.b64decode(found["data"])

    # --- what is there

    def nodes(self) -> Iterator[Node]:
        """The accessibility tree, without what is left out of it."""
        for node in self.call("Accessibility.getFullAXTree")["nodes"]:
            if not node.get("ignored"):
                states = {it["name"]: it["value"].get("value") for it in node.get("properties", ())}
                yield Node(node.get("role", {}).get("value", ""), node.get("name", {}).get("value", ""), states)

    def faults(self) -> List[str]:
        """What went wrong in the page, and what it asked a network for."""
        found = [it["exceptionDetails"].get("exception", {}).get("description", it["exceptionDetails"]["text"])
                 for it in self.events("Runtime.exceptionThrown")]
        found += [it["entry"]["text"] for it in self.events("Log.entryAdded")]
        found += [str(it["args"]) for it in self.events("Runtime.consoleAPICalled") if it["type"] == "error"]
        found += ["asks for " + it["request"]["url"] for it in self.events("Network.requestWillBeSent")
                  if not it["request"]["url"].startswith(("file://", "blob:", "about:"))]
        found += ["opens a dialog: " + it["message"] for it in self.events("Page.javascriptDialogOpening")]
        return found
