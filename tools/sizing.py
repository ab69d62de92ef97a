#!/usr/bin/env python3
"""What a relay takes of memory and of files: docs/OPERATING.md ("Sizing") has rows of this table, and the formula.

    python3 tools/sizing.py plan SETTINGS [REQUEST [TAGS]]
    python3 tools/sizing.py [PROGRAM]

`plan` computes how much memory a relay may take by a file of settings, where sources send requests of at most REQUEST
bytes (by default as many as message_limit allows), and at most TAGS tags hold entries at a time (by default 1,000).

The second call measures. PROGRAM is a built forward_relay; else RELAY names it, or it is
crates/forward_relay/out/forward_relay. Each row is a relay of its own on free ports of 127.0.0.1, with a server that is
not there, so that it holds all that it accepts. The row says how much its resident memory grew for each of so many, and
what of that is the bytes of their entries. It takes half a minute.
"""

import os
import pathlib
import socket
import struct
import subprocess
import sys
import tempfile
import time

from page import NoPage, read_page

SIZE = 200  # bytes of an entry

# What `plan` counts for each, in bytes: rows of the table in OPERATING, rounded up.
EACH = {"relay": 2_500_000, "reader": 200_000, "connection": 2_500, "worker": 87_000, "session": 22_500, "tag": 1_400}
PIECES = 65_536  # what a source that waits may have sent beside its first request
UNANSWERED = 2_097_152  # what unanswered requests may take at an output, at least
DEFAULTS = {"connections": 256, "message_limit": 16_777_216, "readers": 1, "workers": 1, "total_limit": 512_000_000}

SETTINGS = """[relay]
listen = "127.0.0.1:{port}"
monitor = "127.0.0.1:{monitor}"
connections = 1024
{key}
[[output]]
match = "**"
workers = {workers}
total_limit = 4000000000
[[output.server]]
address = "127.0.0.1:{server}"
"""


def free_ports(count):
    probes = [socket.socket() for _ in range(count)]
    for probe in probes:
        probe.bind(("127.0.0.1", 0))
    ports = [probe.getsockname()[1] for probe in probes]
    for probe in probes:
        probe.close()
    return ports


def entry(size):
    """An entry of so many bytes: an integer time, and a record with a text."""
    return b"\x92\xce\x65\x00\x00\x00\x81\xa7message\xda" + struct.pack(">H", size - 18) + b"x" * (size - 18)


def request(tag, count):
    """A request in PackedForward mode that asks for an acknowledgement."""
    packed = entry(SIZE) * count
    chunk = os.urandom(12).hex().encode()
    head = b"\x93\xd9" + bytes([len(tag)]) + tag + b"\xc6" + struct.pack(">I", len(packed))
    return head + packed + b"\x81\xa5chunk\xb8" + chunk


class Site:
    """A relay, and what is seen of it."""

    def __init__(self, program, folder, workers=1, key=""):
        self.port, monitor, self.server = free_ports(3)
        self.url = f"http://127.0.0.1:{monitor}/"
        path = pathlib.Path(folder) / "relay.toml"
        values = {"port": self.port, "monitor": monitor, "server": self.server, "workers": workers, "key": key}
        path.write_text(SETTINGS.format(**values))
        self.streams = []
        self.relay = subprocess.Popen([program, "run", path])
        self.await_accepted(0)
        self.before = self.memory()

    def __enter__(self):
        return self

    def __exit__(self, *_):
        self.relay.kill()
        self.relay.wait()
        for stream in self.streams:
            stream.close()

    def memory(self):
        return int(pathlib.Path(f"/proc/{self.relay.pid}/statm").read_text().split()[1]) * os.sysconf("SC_PAGE_SIZE")

    def files(self):
        return len(os.listdir(f"/proc/{self.relay.pid}/fd"))

    def accepted(self):
        try:
            return read_page(self.url)[0].accepted
        except NoPage:
            return -1

    def await_accepted(self, count):
        for _ in range(600):
            if self.accepted() == count:
                return
            time.sleep(0.05)
        sys.exit(f"accepted {self.accepted()} of {count}")

    def connect(self):
        stream = socket.create_connection(("127.0.0.1", self.port))
        self.streams.append(stream)
        return stream

    def grown(self, count):
        """How much memory grew for each of so many."""
        time.sleep(0.3)
        return (self.memory() - self.before) / count


def row(what, grown, entries):
    print(f"| {what} | {grown:,.0f} | {entries:,} | {grown - entries:,.0f} |", flush=True)


def held(program, folder, what, requests, count, tags=1):
    """Requests that are held, all over one connection."""
    with Site(program, folder) as site:
        stream = site.connect()
        for number in range(requests):
            stream.sendall(request(b"app.%06d" % (number % tags), count))
        site.await_accepted(requests * count)
        row(f"{what}, held ({requests:,})", site.grown(requests), SIZE * count)


def connections(program, folder, what, key, count=1000):
    with Site(program, folder, key=key) as site:
        before = site.files()
        for _ in range(count):
            site.connect()
        row(f"{what} ({count:,})", site.grown(count), 0)
        return (site.files() - before) / count


def unfinished(program, folder, size, count=200):
    """Connections of which each has sent so many bytes of a longer request."""
    with Site(program, folder) as site:
        for _ in range(count):
            site.connect().sendall(request(b"app", 2 * size // SIZE)[:size])
        row(f"a connection with {size:,} bytes of an unfinished request ({count:,})", site.grown(count), size)


def sessions(program, folder, workers=16):
    """Workers of which each has a session, with a chunk of one entry that is not acknowledged: how many files each has."""
    with Site(program, folder, workers) as site, socket.create_server(("127.0.0.1", site.server)) as listener:
        before = site.files()
        stream = site.connect()
        for number in range(workers):
            stream.sendall(request(b"app.%06d" % number, 1))
        for _ in range(workers):
            site.streams.append(listener.accept()[0])
        row(f"the session of a worker, with a chunk of 1 entry ({workers})", site.grown(workers), SIZE)
        return (site.files() - before - 1) / workers


def planned(settings, request=None, tags=1000):
    """How many bytes a relay may take by settings: of what, and how many."""
    value = lambda table, key: table.get(key, DEFAULTS[key])
    relay, outputs = settings.get("relay", {}), settings.get("output", [])
    connections, readers = value(relay, "connections"), value(relay, "readers")
    request = request or value(relay, "message_limit")
    workers = sum(value(output, "workers") for output in outputs)
    limits = [value(output, "total_limit") for output in outputs]
    waits = any(output.get("full") == "wait" for output in outputs)
    return {
        "entries that outputs hold": sum(limits),
        "their requests, not answered yet": readers * sum(max(2 * limit, UNANSWERED) for limit in limits),
        "requests that are unfinished or wait": connections * (2 * (request + PIECES) if waits else request),
        "connections, workers, readers, tags": EACH["relay"]
        + EACH["reader"] * (readers - 1)
        + EACH["connection"] * connections
        + (EACH["worker"] + EACH["session"]) * workers
        + EACH["tag"] * tags,
    }


def plan(path, *numbers):
    """Prints the plan for a file of settings."""
    try:
        import tomllib
    except ImportError:
        sys.exit("plan needs a Python with tomllib, as Debian 12 has it")
    with open(path, "rb") as file:
        parts = planned(tomllib.load(file), *map(int, numbers))
    for what, count in [*parts.items(), ("together", sum(parts.values()))]:
        print(f"{count:>18,}  {what}")


def main():
    if sys.argv[1:2] == ["plan"] and 3 <= len(sys.argv) <= 5:
        return plan(*sys.argv[2:])
    program = (sys.argv[1:] + [os.environ.get("RELAY") or "crates/forward_relay/out/forward_relay"])[0]
    with tempfile.TemporaryDirectory() as folder:
        print(f"| each, of so many | bytes | of these its entries' of {SIZE} bytes | the rest |\n|---|---|---|---|")
        held(program, folder, "a request of 1 entry", 200_000, 1)
        held(program, folder, "a request of 100 entries", 10_000, 100)
        held(program, folder, "a request of 10,000 entries", 100, 10_000)
        held(program, folder, "a tag with a request of 1 entry", 100_000, 1, 100_000)
        a_connection = connections(program, folder, "a connection", "")
        connections(program, folder, "a connection, with a shared key", 'shared_key = "a secret"')
        for size in (1000, 60_000, 1_000_000):
            unfinished(program, folder, size)
        with Site(program, folder) as one, Site(program, folder, workers=16) as many:
            row("a worker (15)", (many.before - one.before) / 15, 0)
            a_worker = (many.files() - one.files()) / 15
            base = one.files() - a_worker
            a_session = sessions(program, folder)
            print(f"\nA relay with one output and one worker, and nothing held: {one.before:,} bytes.")
            print(
                f"Files: {base:.0f}, each connection {a_connection:.0f}, each worker {a_worker:.0f}, with a session",
                end=" ",
            )
            print(f"{a_worker + a_session:.0f}.")


if __name__ == "__main__":
    main()
