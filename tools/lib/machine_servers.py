"""The part `ssh` of checks/machine.py: two machines by real ssh, one of which is down, has another key, or ends in the middle."""
from __future__ import annotations

import threading
import time
from typing import List, Tuple

from .machine import Done, Machine, free_port
from .machine_project import FOLDER, make_project

NAMES = ("srva", "srvb")
ADDRESSES = ("10.9.0.1", "10.9.0.2")
STORE = "/var/lib/facl/today"
SCRIPT = (f"can --reach mara {FOLDER}/notes.txt\nwho --reach w {FOLDER}\nmay --reach ines r\nno-such-tool\n"
          f"below --reach r {FOLDER}\n")
LONG = "".join(f"may --reach {user} r\n" for user in ("ines", "ben", "mara", "guest")) * 200
HOSTS = "".join(f"{address} {name}\n" for address, name in zip(ADDRESSES, NAMES))
NETWORK = "[Match]\nName=eth1\n[Network]\nAddress=%s/24\n"
SECONDS = 20  # That a server which is gone may take.


class ServersPart:
    """The servers and the questions, which are put on the first one."""

    def __init__(self, here: Machine, there: Machine) -> None:
        self.here, self.there = here, there
        self.faults: List[str] = []
        self.asked, self.start_seconds = 0, 0.0

    def expect(self, holds: bool, fault: str) -> None:
        self.faults += [] if holds else [fault[:900]]

    def connect(self) -> None:
        """Starts both on a network of their own, with the project on each; mara has less on the second one."""
        port = free_port()
        for machine, way, last in ((self.here, "listen", 1), (self.there, "connect", 2)):
            machine.more = ["-netdev", f"socket,id=both,{way}=127.0.0.1:{port}",
                            "-device", f"virtio-net-pci,netdev=both,mac=52:54:00:09:00:0{last}"]
            machine.start()
        for machine, name, address in zip((self.here, self.there), NAMES, ADDRESSES):
            machine.put("/etc/systemd/network/2.network", NETWORK % address)
            machine.run("cat >>/etc/hosts; systemctl restart systemd-networkd", HOSTS)
            machine.run(f"echo {name} >/etc/hostname; hostname {name}")
            make_project(machine)
        self.there.run(f"setfacl -m u:mara:--- {FOLDER}/notes.txt; rm /etc/ssh/ssh_host_*; ssh-keygen -q -A")
        key = self.here.out("ssh-keygen -q -t ed25519 -N '' -f /root/.ssh/id_ed25519; cat /root/.ssh/id_ed25519.pub")
        # The channel of this script goes on by the sshd that has the earlier keys.
        self.there.run("cat >>/root/.ssh/authorized_keys; systemd-run -q /usr/sbin/sshd -D -p 2222", key)
        self.here.put("/root/.ssh/config", "Host srvb\nPort 2222\nBatchMode yes\n", "600")
        scan = "ssh-keyscan -p 2222 srvb >known_hosts 2>/dev/null && [ -s known_hosts ]"
        self.here.run(f"cd /root/.ssh; until {scan}; do sleep 1; done")
        for machine in (self.here, self.there):
            machine.run(f"mkdir -m 700 /var/lib/facl; facl snapshot -q -o {STORE} {FOLDER}")

    def ask(self, given: str = SCRIPT, words: str = "") -> Tuple[Done, float]:
        """Asks both servers, and how long that takes."""
        self.asked += 1
        start = time.monotonic()
        done = self.here.ask(f"facl ask --hosts {words} localhost:{STORE} srvb:{STORE}", given)
        return done, time.monotonic() - start

    @staticmethod
    def answers(machine: Machine, name: str, given: str) -> List[str]:
        """What a server answers itself, each line after its name."""
        return [f"{name}: {line}" for line in machine.run(f"facl ask -q -s {STORE} -", given, (0, 1)).out.splitlines()]

    def both(self) -> None:
        """The answers of both are those of each one asked alone."""
        done, seconds = self.ask()
        for machine, name in ((self.here, "localhost"), (self.there, "srvb")):
            wanted = self.answers(machine, name, SCRIPT)
            lines = [line for line in done.out.splitlines() if line.startswith(f"{name}: ")]
            self.expect(lines == wanted, f"both: {name}: {lines}, and {wanted} alone")
            self.expect(f"{name}: line 4: " in done.err, f"both: {name}: {done.err}")
        self.start_seconds = seconds
        self.expect(done.status == 1 and "localhost: r--\nsrvb: none\n" in done.out, f"both: status {done.status}: {done.both()}")

    def fails(self, what: str, done: Done, message: str, given: str = SCRIPT) -> None:
        """The other server's answers are whole, and the status is 2, with a message about the one that fails."""
        lines, wanted = done.out.splitlines(), self.answers(self.here, "localhost", given)
        said = [line for line in done.err.splitlines() if line.startswith("srvb: ")]
        is_whole = done.status == 2 and lines == wanted
        self.expect(is_whole, f"{what}: status {done.status}, {len(lines)} lines of {len(wanted)}: {done.err}")
        self.expect(len(said) == 1 and message in said[0], f"{what}: messages {said}, and not `{message}`")

    def wrong_key(self) -> None:
        own = "sed 's/^/[srvb]:2222 /' /etc/ssh/ssh_host_ed25519_key.pub"
        self.here.run(f"cd /root/.ssh; cp known_hosts kept; {own} >known_hosts")
        self.fails("another key", self.ask()[0], "@@@@")
        self.here.run("cd /root/.ssh; mv kept known_hosts")

    def no_facl(self) -> None:
        self.there.run("mv /usr/bin/facl /usr/bin/facl.away")
        self.fails("no facl there", self.ask()[0], "facl is not on the path there")
        self.there.run("mv /usr/bin/facl.away /usr/bin/facl")

    def cut_off(self) -> None:
        """The processes of the connection end in the middle of an answer; then the whole machine does, and is down."""
        at_work, end = "until pgrep -x facl_linux; do sleep 0.05; done; sleep 0.3", "pkill -KILL -f sshd:.root@notty"
        self.there.run(f"systemd-run -q sh -c '{at_work}; {end}'")
        self.fails("a connection that ends", self.ask(LONG)[0], "", LONG)
        timer = threading.Timer(self.start_seconds, self.there.cut)
        timer.start()
        done, seconds = self.ask(LONG, f"--timeout {SECONDS * self.here.scale}")
        timer.join()
        self.fails("a server that is switched off in the middle", done, "did not answer in", LONG)
        self.expect(seconds < 2 * SECONDS * self.here.scale, f"a server that is switched off: {seconds:.0f} seconds")
        self.fails("a server that is down", self.ask()[0], "ssh: connect to host srvb port 2222")

    def run(self) -> str:
        self.connect()
        for step in (self.both, self.wrong_key, self.no_facl, self.cut_off):
            step()
        return f"ssh: two machines, {self.asked} questions"
