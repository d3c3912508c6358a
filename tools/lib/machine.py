"""A machine in qemu: it is started, asked by ssh as root, cut off, and gone at the end of a context.

What it writes goes into a layer over the disk of its image, so each machine starts as it was installed. Where the processor has
no virtualization of its own that qemu could use, qemu interprets: that takes some ten times as long, and all limits of time are
longer.
"""
from __future__ import annotations

import contextlib
import datetime
import os
import re
import socket
import subprocess
import time
from pathlib import Path
from typing import Iterator, List, NamedTuple, Optional, Tuple, Union

from .machine_image import Image
from .script import Failed

BOOT_SECONDS, RUN_SECONDS = 60, 120  # With virtualization; each is multiplied without it.
SLOWER = 10
KERNEL_WORDS = "root=/dev/vda rw console=ttyS0 net.ifnames=0 quiet mitigations=off nowatchdog"
LOST = 255  # The status of ssh where there is no connection.
Text = Union[str, bytes]


class Done(NamedTuple):
    status: int
    out: str
    err: str

    def both(self) -> str:
        return self.out + self.err


def has_virtualization() -> bool:
    """Whether /dev/kvm runs what is not made for it, which takes a processor that can do so."""
    flags = re.search(r"(?m)^flags\b.*\b(vmx|svm)\b", Path("/proc/cpuinfo").read_text(encoding="ascii", errors="replace"))
    return flags is not None and os.access("/dev/kvm", os.R_OK | os.W_OK)


def free_port() -> int:
    """A port of this system that nobody listens on now."""
    with socket.socket() as one:
        one.bind(("127.0.0.1", 0))
        return int(one.getsockname()[1])


class Machine:
    """A machine, which is on or off. `more` are words of qemu for further devices, `masked` units of systemd that stay away."""

    def __init__(self, image: Image, folder: str, name: str = "machine") -> None:
        self.image, self.name = image, name
        self.layer, self.console = os.path.join(folder, name + ".qcow2"), os.path.join(folder, name + ".console")
        self.more: List[str] = []
        self.masked: List[str] = []
        self.port = 0
        self.process: Optional["subprocess.Popen[bytes]"] = None
        self.channel: Optional["subprocess.Popen[bytes]"] = None  # The connection of ssh that all lines go through.
        self.is_quick = has_virtualization()
        self.scale = 1 if self.is_quick else SLOWER
        made = ["qemu-img", "create", "-q", "-f", "qcow2", "-F", "raw", "-b", image.disk, self.layer]
        if subprocess.run(made, check=False).returncode:
            raise Failed("qemu-img fails")

    def words(self, moment: Optional[datetime.datetime]) -> List[str]:
        """The command of qemu; `moment` is what the clock shows at the start, in UTC."""
        processor = ["-accel", "kvm", "-cpu", "host"] if self.is_quick else ["-accel", "tcg,tb-size=512", "-cpu", "qemu64"]
        network = f"user,id=here,restrict=on,hostfwd=tcp:127.0.0.1:{self.port}-:22"
        return ["qemu-system-x86_64", "-nodefaults", "-machine", "q35", *processor, "-smp", "1", "-m", "1024", "-display", "none",
                "-serial", "file:" + self.console, "-rtc", moment.strftime("base=%Y-%m-%dT%H:%M:%S") if moment else "base=utc",
                "-kernel", self.image.file("kernel"), "-initrd", self.image.file("initrd"),
                "-append", " ".join([KERNEL_WORDS, *("systemd.mask=" + unit for unit in self.masked)]),
                "-drive", f"file={self.layer},format=qcow2,if=none,id=first,cache=writeback",
                "-device", "virtio-blk-pci,drive=first",
                "-netdev", network, "-device", "virtio-net-pci,netdev=here", "-device", "virtio-rng-pci", *self.more]

    def start(self, moment: Optional[datetime.datetime] = None) -> None:
        """Switches it on, and waits until its services are there."""
        self.port = free_port()
        self.process = subprocess.Popen(self.words(moment), stdin=subprocess.DEVNULL)
        last = time.monotonic() + BOOT_SECONDS * self.scale
        while self.ask("true", seconds=15 / self.scale).status:
            if self.process.poll() is not None or time.monotonic() > last:
                raise Failed(f"{self.name} does not start: {self.said_last()}")
            time.sleep(0.5)
        self.channel = self.begin("", "-M", "-N")
        self.ask("systemctl is-system-running --wait")

    def said_last(self) -> str:
        with contextlib.suppress(OSError):
            return Path(self.console).read_text(encoding="utf-8", errors="replace")[-1500:]
        return ""

    def ssh(self, text: str, *more: str) -> List[str]:
        """The words of ssh for a line of a shell, or with further ones."""
        options = ("BatchMode=yes", "HostKeyAlias=machine", f"UserKnownHostsFile={self.image.file('hosts')}", "LogLevel=ERROR",
                   f"ConnectTimeout={5 * self.scale}", f"ControlPath={self.layer}.ssh")
        return ["ssh", "-F", "none", "-i", self.image.file("key"), "-p", str(self.port),
                *(word for option in options for word in ("-o", option)), *more, "root@127.0.0.1", *filter(None, [text])]

    def begin(self, text: str, *more: str) -> "subprocess.Popen[bytes]":
        """Starts a line of a shell, whose end is not waited for."""
        nothing = subprocess.DEVNULL
        return subprocess.Popen(self.ssh(text, *more), stdin=nothing, stdout=nothing, stderr=nothing)

    def ask(self, text: str, given: Text = b"", seconds: float = RUN_SECONDS) -> Done:
        """What a line of a shell prints, and its status; `given` is its standard input."""
        content = given if isinstance(given, bytes) else given.encode()
        try:
            done = subprocess.run(self.ssh(text), input=content, capture_output=True, timeout=seconds * self.scale, check=False)
        except subprocess.TimeoutExpired:
            return Done(LOST, "", f"took more than {seconds * self.scale} seconds")
        return Done(done.returncode, *(it.decode("utf-8", "backslashreplace") for it in (done.stdout, done.stderr)))

    def run(self, text: str, given: Text = b"", statuses: Tuple[int, ...] = (0,)) -> Done:
        """The same, of a line whose status is known."""
        done = self.ask(text, given)
        if done.status not in statuses:
            raise Failed(f"{self.name}: {text[:300]}: status {done.status}\n{done.both()[-2000:]}")
        return done

    def out(self, text: str, given: Text = b"") -> str:
        return self.run(text, given).out

    def put(self, name: str, content: Text, mode: str = "644") -> None:
        """Writes a file of the machine."""
        self.run(f"cat >'{name}' && chmod {mode} '{name}'", content)

    def stop(self) -> None:
        """Switches it off in order."""
        assert self.process is not None
        self.ask("systemctl poweroff")
        try:
            self.process.wait(BOOT_SECONDS * self.scale)
        except subprocess.TimeoutExpired as fault:
            raise Failed(f"{self.name} does not end: {self.said_last()}") from fault
        finally:
            self.cut()

    def cut(self) -> None:
        """Ends qemu as a power cut would."""
        for process in (self.process, self.channel):
            if process is not None:
                process.kill()
                process.wait()
        self.process = self.channel = None
        Path(self.layer + ".ssh").unlink(missing_ok=True)


@contextlib.contextmanager
def machines(image: Image, folder: str, *names: str) -> Iterator[List[Machine]]:
    """Machines that are off; at the end they are gone with their disks."""
    made = [Machine(image, folder, name) for name in names]
    try:
        yield made
    finally:
        for one in made:
            one.cut()
            for name in (one.layer, one.console):
                Path(name).unlink(missing_ok=True)
