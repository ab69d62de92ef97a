"""A relay by some settings, as a process: what is said to it, and what is seen of it."""

import itertools
import json
import os
import pathlib
import re
import signal
import socket
import subprocess
import time

from forward import HOST, Source
from page import OPENER, NoPage, read_page

TOP = pathlib.Path(__file__).resolve().parent.parent
BUILT = TOP / "crates" / "forward_relay" / "out" / "forward_relay"
DEADLINE = 60  # seconds within which what is to happen happens, however busy the machine is
TICK = os.sysconf("SC_CLK_TCK")
HELD = []  # sockets that keep ports for this process
STAMP = re.compile(r"^\d{4}-\d\d-\d\dT\d\d:\d\d:\d\d\.\d{3}Z ", re.MULTILINE)


class Late(AssertionError):
    """What was to happen did not, and why that may be."""


def built_program():
    """The program that is tried: RELAY names it, else it is where a build of this checkout leaves it."""
    return str(pathlib.Path(os.environ.get("RELAY") or BUILT).resolve())


def until(what, said, seconds=DEADLINE, step=0.02):
    """What a call gives as soon as that is true; Late where it is not in so many seconds."""
    end = time.monotonic() + seconds
    while not (found := what()):
        if time.monotonic() > end:
            raise Late(f"not in {seconds} s: {said() if callable(said) else said}")
        time.sleep(step)
    return found


def steady(look, seconds=0.5):
    """What a call gives once it has given the same for so long."""
    seen, since = look(), time.monotonic()
    while time.monotonic() - since < seconds:
        time.sleep(0.02)
        if (now := look()) != seen:
            seen, since = now, time.monotonic()
    return seen


def free_ports(count):
    """Ports that nobody listens at, and that no other test takes: each stays bound, in a way that lets a listener in.

    They lie below those that the system gives to who connects.
    """
    ports = []
    for port in itertools.cycle(range(10_000 + os.getpid() * 37 % 20_000, 32_000)):
        if len(ports) == count:
            return ports
        held = socket.socket()
        try:
            held.bind((HOST, port))
        except OSError:
            held.close()
            continue
        held.setsockopt(socket.SOL_SOCKET, socket.SO_REUSEADDR, 1)
        HELD.append(held)
        ports.append(port)


def table(head, keys):
    """A table of TOML, without keys that are None. JSON spells its texts, numbers and truths alike."""
    lines = (f"{key} = {json.dumps(value)}\n" for key, value in keys.items() if value is not None)
    return f"{head}\n" + "".join(lines)


def settings(relay, outputs):
    """A text of settings: of each output its keys, and under `servers` ports or tables of keys."""
    relay = dict(relay)
    users = relay.pop("users", {})
    parts = [table("[relay]", relay)]
    parts += [table("[[relay.user]]", {"name": n, "password": p}) for n, p in users.items()]
    for output in outputs:
        keys = {"match": "**", "flush_interval": 0, "retry_wait": 50, "retry_max": 200} | output
        servers = keys.pop("servers")
        parts.append(table("[[output]]", keys))
        for server in servers:
            server = server if isinstance(server, dict) else {"port": server}
            server = {"address": f"{HOST}:{server['port']}"} | server
            del server["port"]
            parts.append(table("[[output.server]]", server))
    return "".join(parts)


class Child:
    """A program beside a test: its words, what it says in a file, and the port that it listens at, if it does."""

    def __init__(self, words, said, port=None, environment=None):
        self.words, self.said_path, self.port = [str(word) for word in words], pathlib.Path(said), port
        self.environment = {**os.environ, **(environment or {})}

    def __enter__(self):
        return self

    def __exit__(self, *_):
        self.kill()

    def begin(self, **streams):
        """Starts it; its streams may go elsewhere than to its file."""
        with open(self.said_path, "ab") as said:
            streams = {"stdin": subprocess.DEVNULL, "stdout": said, "stderr": said} | streams
            self.process = subprocess.Popen(self.words, env=self.environment, start_new_session=True, **streams)
        return self

    def start(self, **streams):
        """Starts it, and waits until it listens."""
        self.begin(**streams)
        self.until(lambda: not self.is_up() or self.is_there(), "it does not listen")
        assert self.is_up(), f"it ended at its start: {self.process.returncode} {self.said()[-2000:]}"
        return self

    def is_there(self):
        """Whether it listens."""
        return self.port is None or is_listened_at(self.port)

    def is_up(self):
        """Whether it has not ended."""
        return self.process.poll() is None

    def kill(self):
        """Ends it and its children at once: the status, or the signal as a negative number."""
        if self.is_up():
            os.killpg(self.process.pid, signal.SIGKILL)
        return self.process.wait()

    def end(self):
        """Asks it and its children to end: the status."""
        if self.is_up():
            os.killpg(self.process.pid, signal.SIGTERM)
        return self.ended()

    def ended(self, seconds=DEADLINE):
        """The status that it ends with by itself."""
        return self.process.wait(seconds)

    def processor(self):
        """The processor seconds of all its threads, and of its children that have ended."""
        fields = pathlib.Path(f"/proc/{self.process.pid}/stat").read_text().rpartition(")")[2].split()
        return sum(map(int, fields[11:15])) / TICK

    def said(self):
        """What it said."""
        return self.said_path.read_text(errors="replace")

    def until(self, what, why, seconds=DEADLINE):
        """As `until`, with the end of what it said where that is late."""
        return until(what, lambda: f"{why() if callable(why) else why}; it said {self.said()[-2000:]}", seconds)


class Relay(Child):
    """A program that runs, with its journal and the monitor's page."""

    def __init__(self, program, folder, outputs, turns=None, under=(), environment=None, port=None, **relay):
        listen, self.monitor = free_ports(2)
        port = port or listen
        keys = {"listen": f"{HOST}:{port}", "monitor": f"{HOST}:{self.monitor}"} | relay
        self.path = pathlib.Path(folder) / f"relay-{port}.toml"
        self.path.write_text(settings(keys, outputs))
        self.turns = [] if turns is None else [turns]
        words = [*under, program, "run", self.path, *self.turns]
        environment = {"FORWARD_RELAY_LOG": "info", **(environment or {})}
        super().__init__(words, pathlib.Path(folder) / f"journal-{port}", port, environment)
        self.sources = []

    def start(self, errors=None, stdout=subprocess.DEVNULL):
        """Starts it, and waits until it listens; its journal may go elsewhere than to its file."""
        streams = {"stdout": stdout} | ({} if errors is None else {"stderr": errors})
        if self.turns:
            return self.begin(**streams)  # it may end at any moment
        return super().start(**streams)

    def is_there(self):
        """Whether it listens, which it does for its monitors last."""
        return is_listened_at(self.monitor)

    def kill(self):
        """Ends it at once, and its sources."""
        status = super().kill()
        for source in self.sources:
            source.close()
        return status

    # ---- what it says

    def journal(self):
        """What it said, without the times."""
        return STAMP.sub("", self.said())

    def lines(self, front):
        """How many lines begin so, those that were left out too."""
        count = 0
        for line in self.journal().splitlines():
            if line.startswith(front):
                is_left_out = re.search(r"[:,] (\d+) left out$", line)
                count += int(is_left_out[1]) if is_left_out else 1
        return count

    def await_line(self, pattern, seconds=DEADLINE):
        """The first line of the journal that a pattern is found in, once there is one."""
        found = self.until(
            lambda: re.search(f"^.*(?:{pattern}).*$", self.journal(), re.MULTILINE), f"no {pattern}", seconds
        )
        return found[0]

    def page(self, seconds=DEADLINE):
        """The page's outputs, asked until they are had."""
        return self.until(self.page_once, "no page", seconds)

    def page_once(self):
        """The page's outputs, or None."""
        try:
            return read_page(f"http://{HOST}:{self.monitor}/")
        except NoPage:
            return None

    def metric(self, sample):
        """The value of a sample of the metrics page, by its name and labels; None where there is none."""
        with OPENER.open(f"http://{HOST}:{self.monitor}/metrics", timeout=DEADLINE) as page:
            text = page.read().decode()
        found = re.search(rf"^{re.escape(sample)} (\d+)$", text, re.MULTILINE)
        return int(found[1]) if found else None

    def await_page(self, what, seconds=DEADLINE, number=0):
        """The counts of an output, once something is so of them."""

        def found():
            output = self.page()[number]
            return output if what(output) else None

        return self.until(found, lambda: f"the page says {self.page()}", seconds)

    def await_settled(self, count, seconds=DEADLINE, number=0):
        """The counts of an output, once so many entries are settled, and none is held."""
        return self.await_page(lambda it: it.settled >= count and it.held == 0, seconds, number)

    def source(self, **how):
        """A source's connection, which ends with it."""
        self.sources.append(Source(self.port, **how))
        return self.sources[-1]

    # ---- what the system says of it

    def status(self, name):
        """A size of /proc/PID/status, in bytes."""
        text = pathlib.Path(f"/proc/{self.process.pid}/status").read_text()
        return int(re.search(rf"^{name}:\s+(\d+)", text, re.MULTILINE)[1]) * 1024

    def memory(self):
        """Its resident bytes."""
        return self.status("VmRSS")

    def files(self):
        """How many files it has open."""
        return len(os.listdir(f"/proc/{self.process.pid}/fd"))


def is_listened_at(port):
    """Whether somebody listens at a port of this machine."""
    with socket.socket() as probe:
        return probe.connect_ex((HOST, port)) == 0
