#!/usr/bin/python3
"""Shows in a terminal what the relay is for, in ten seconds, and stops everything again.

    sh demo

RELAY names a built program. Without RELAY the demo takes the proved program, if `rt run` left one. Otherwise it takes a
program without proof, and first builds it (dev/build.py) if there is none of these sources. It needs Debian's
python3-msgpack.

The relay is a process. The source and the next hop are parts of this one, so that one clock gives all times. Each step
is checked as it happens, and the status is 0 only if all was as it is shown.
"""

import contextlib
import os
import pathlib
import signal
import socket
import subprocess
import sys
import tempfile
import threading
import time

from next_hop import HOST, NextHop, Values, acknowledge
from page import NoPage, read_page

TOP = pathlib.Path(__file__).resolve().parent.parent
PROVED = TOP / "crates" / "forward_relay" / "out" / "forward_relay"
UNPROVED = PROVED.parent / "unproved" / "forward_relay"
SIGNALS = (signal.SIGINT, signal.SIGTERM, signal.SIGHUP)

DEADLINE = 60  # seconds within which a step happens, however busy the machine is
PAUSE = 1  # seconds until the next hop acknowledges a chunk
SILENCE = 3  # seconds that the source waits while the next hop is away

SETTINGS = """[relay]
listen = "127.0.0.1:{listen}"
monitor = "127.0.0.1:{monitor}"

[[output]]
match = "**"
flush_interval = 0
retry_wait = 100
retry_max = 500
full = "wait"

[[output.server]]
address = "127.0.0.1:{next_hop}"
"""


class Untrue(Exception):
    """A step was not as the demo shows it."""


def until(is_so, what):
    """Waits until something is so."""
    end = time.monotonic() + DEADLINE
    while not is_so():
        if time.monotonic() > end:
            raise Untrue(f"{what} within {DEADLINE} s")
        time.sleep(0.02)


def say(text):
    """Writes a line, at once; ends this program if nobody reads any more."""
    try:
        os.write(sys.stdout.fileno(), f"{text}\n".encode())
    except BrokenPipeError:
        os.kill(os.getpid(), signal.SIGTERM)


def entry(line):
    """The tag, the time and the record of a line."""
    return "demo", 1700000000, {"line": line}


class Port:
    """A free port: it stays bound, so that the system gives it to no other program, in a way that lets a listener in."""

    def __init__(self):
        self.held = socket.socket()
        self.held.bind((HOST, 0))
        self.held.setsockopt(socket.SOL_SOCKET, socket.SO_REUSEADDR, 1)
        self.number = self.held.getsockname()[1]

    def is_listened_at(self):
        """Whether a program listens at the port."""
        with socket.socket() as probe:
            return probe.connect_ex((HOST, self.number)) == 0


class Screen:
    """The lines of the demo: who does what, and when."""

    def __init__(self):
        self.start, self.lock = time.monotonic(), threading.Lock()

    def show(self, who, what):
        """Shows a line, and gives its time in seconds."""
        with self.lock:
            now = time.monotonic() - self.start
            say(f"{now * 1000:6.0f} ms  {who:8}  {what}")
        return now


class Relay:
    """The relay's process."""

    def __init__(self, program, folder, next_hop):
        self.listen, self.monitor, self.process = Port(), Port(), None
        settings, self.journal = folder / "relay.toml", folder / "journal"
        ports = {"listen": self.listen.number, "monitor": self.monitor.number, "next_hop": next_hop.number}
        settings.write_text(SETTINGS.format(**ports))
        self.words = [program, "run", settings]

    def start(self):
        """Starts the relay, and waits until it listens, which it does at the monitor's port last."""
        with open(self.journal, "ab") as journal:
            streams = {"stdin": subprocess.DEVNULL, "stdout": subprocess.DEVNULL, "stderr": journal}
            self.process = subprocess.Popen(self.words, env={**os.environ, "FORWARD_RELAY_LOG": "info"}, **streams)
        until(lambda: self.process.poll() is not None or self.monitor.is_listened_at(), "the relay did not listen")
        if self.process.poll() is not None:
            raise Untrue(f"the relay ended with status {self.process.returncode}")

    def kill(self):
        """Kills the relay."""
        if self.process is not None:
            self.process.kill()
            self.process.wait()

    def holds(self, count):
        """Whether the monitor's page says that the relay holds that many entries."""
        with contextlib.suppress(NoPage):
            return [output.held for output in read_page(f"http://{HOST}:{self.monitor.number}/")] == [count]

    def said(self):
        """The end of the relay's journal."""
        return self.journal.read_text(errors="replace")[-2000:] if self.journal.exists() else ""


class Source:
    """A source's connection to the relay."""

    def __init__(self, relay):
        self.stream = Values(socket.create_connection((HOST, relay.listen.number), timeout=DEADLINE))

    def send(self, line):
        """Sends a line in Message mode. The name of its chunk, which asks for an acknowledgement, is the line too."""
        self.stream.send([*entry(line), {"chunk": line}])

    def answer(self, seconds):
        """What the relay answers within some seconds: None for nothing, and "closed" for the connection's end."""
        self.stream.link.settimeout(seconds)
        try:
            return self.stream.value()
        except socket.timeout:
            return None
        except OSError:
            return "closed"


class Demo:
    """A relay, its next hop, and what happens to them."""

    def __init__(self, program, version, folder):
        self.version, self.screen, self.acknowledged, self.port = version, Screen(), {}, Port()
        self.relay = Relay(program, folder, self.port)
        self.hop = NextHop(self.port.number, answer=self.acknowledge)

    def __enter__(self):
        return self

    def __exit__(self, *_):
        self.relay.kill()
        self.hop.end()

    def acknowledge(self, hop, stream, frame):
        """What the next hop does with a chunk."""
        (line,) = [record["line"] for _, _, record in frame.entries()]
        self.screen.show("next hop", f"has {line}")
        time.sleep(PAUSE)
        self.acknowledged[line] = self.screen.show("next hop", f"acknowledges {line}")
        acknowledge(hop, stream, frame)

    def await_acknowledgement(self, source, line):
        """The source gets the acknowledgement of a line, after the next hop gave its own."""
        answer = source.answer(DEADLINE)
        is_it = answer == {"ack": line}
        now = self.screen.show("source", f"gets the acknowledgement of {line}" if is_it else f"gets {answer!r}")
        if not is_it:
            raise Untrue(f"the source got no acknowledgement of {line}")
        if line not in self.acknowledged or now < self.acknowledged[line]:
            raise Untrue(f"the relay acknowledged {line} before the next hop did")

    def run(self):
        """Shows all steps."""
        self.deliver()
        self.lose_the_relay(self.wait_for_nothing())
        self.deliver_in_the_end()
        if lost := [line for line in ("line 1", "line 2") if entry(line) not in self.hop.entries()]:
            raise Untrue(f"the next hop lacks {', '.join(lost)}")

    def deliver(self):
        """With a next hop the source gets its acknowledgement."""
        self.relay.start()
        self.screen.show("relay", f"starts, as {self.version}")
        source = Source(self.relay)
        self.screen.show("source", "sends line 1, and asks for an acknowledgement")
        source.send("line 1")
        self.await_acknowledgement(source, "line 1")

    def wait_for_nothing(self):
        """Without a next hop the relay holds what the source sends, and does not acknowledge it."""
        self.hop.end()
        self.screen.show("next hop", "stops")
        source = Source(self.relay)
        self.screen.show("source", "sends line 2")
        source.send("line 2")
        until(lambda: self.relay.holds(1), "the relay did not hold line 2")
        self.screen.show("relay", "holds line 2 in memory")
        if (answer := source.answer(SILENCE)) is not None:
            raise Untrue(f"the next hop has not acknowledged line 2, and the source got {answer!r}")
        self.screen.show("source", f"got no acknowledgement in {SILENCE} s, and keeps line 2")
        return source

    def lose_the_relay(self, source):
        """The relay is killed, and what it held is gone."""
        self.screen.show("relay", "is killed, and its memory is gone")
        self.relay.kill()
        if (answer := source.answer(DEADLINE)) != "closed":
            raise Untrue(f"the relay was killed, and the source got {answer!r}")
        self.relay.start()
        until(lambda: self.relay.holds(0), "the relay held something at its start")
        self.screen.show("relay", "starts again, and holds nothing")

    def deliver_in_the_end(self):
        """The source sends again what was not acknowledged."""
        source = Source(self.relay)
        self.screen.show("source", "sends line 2 again")
        source.send("line 2")
        self.screen.show("next hop", "starts again")
        self.hop.start()
        self.await_acknowledgement(source, "line 2")


def is_current(program):
    """Whether a program is there, and is younger than all sources."""
    sources = (TOP / "crates").glob("*/src/**/*.rt")
    return program.exists() and max(path.stat().st_mtime for path in sources) < program.stat().st_mtime


def build():
    """Builds a program without its proof; ends this one if that fails."""
    say("No program is built yet. This builds one without its proof, which takes some minutes:")
    child = subprocess.Popen([sys.executable, TOP / "dev" / "build.py"], start_new_session=True)
    try:
        status = child.wait()
    except BaseException:
        child.terminate()
        child.wait()
        raise
    if status:
        sys.exit(status)


def built_program():
    """The program that is shown."""
    if named := os.environ.get("RELAY"):
        return pathlib.Path(named).resolve()
    if PROVED.exists():
        return PROVED
    if not is_current(UNPROVED):
        build()
    return UNPROVED


def version(program):
    """What a program says that it is."""
    try:
        return subprocess.run([program, "version"], capture_output=True, text=True, check=True).stdout.strip()
    except (OSError, subprocess.CalledProcessError) as error:
        sys.exit(f"no program: {error}")


def stop(number, _):
    """Ends this program at a signal, once."""
    for one in SIGNALS:
        signal.signal(one, signal.SIG_IGN)
    sys.exit(128 + number)


def main():
    for one in SIGNALS:
        signal.signal(one, stop)
    program = built_program()
    what = program, version(program)
    with tempfile.TemporaryDirectory(prefix="demo-") as folder, Demo(*what, pathlib.Path(folder)) as demo:
        try:
            demo.run()
        except (Untrue, OSError) as error:
            sys.exit(f"{demo.relay.said()}This is not so: {error}.")
    say("No line was acknowledged before the next hop acknowledged it, and none is lost. All is stopped.")


if __name__ == "__main__":
    main()
