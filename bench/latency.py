#!/usr/bin/env python3
"""How long a request of one entry takes through the relay and back, and what idle workers cost.

    /usr/bin/python3 bench/latency.py PROGRAM [REQUESTS]

It needs python3-msgpack. PROGRAM is a built forward_relay, as crates/forward_relay/out/forward_relay. It runs on free ports of
127.0.0.1, and this script plays the one source and the next hop, one request after the other with 20 ms
between them: `there` is from the source's write until the next hop has the frame, `back` from the next
hop's acknowledgement until the source has its own. Once chunks are closed by time (flush_interval 0), and
once by size alone, each by the request behind it. Then 16 workers with sessions stand idle for 10 s.
"""

import pathlib
import socket
import sys
import tempfile
import time

sys.path[:0] = [str(pathlib.Path(__file__).resolve().parents[1] / part) for part in ("tests", "tools")]
from forward import Stream, connect  # noqa: E402
from relay import Relay  # noqa: E402


class Site:
    """A relay, its source, and the listener of its next hop."""

    def __init__(self, program, folder, interval, limit, workers):
        self.server = socket.create_server(("127.0.0.1", 0))
        self.server.settimeout(30)
        keys = {"flush_interval": interval, "chunk_limit": limit, "workers": workers}
        outputs = [{"servers": [self.server.getsockname()[1]], **keys}]
        self.relay = Relay(program, folder, outputs, environment={"FORWARD_RELAY_LOG": ""}).start()
        self.source = connect(self.relay.port).link

    def accept(self):
        """The next connection of the relay."""
        return Stream(self.server.accept()[0]).link

    def send(self, number):
        """A Message under the tag `a`, whose entry has 47 bytes."""
        record = b"\x81\xa1k\xd9\x25" + b"v" * 37
        self.source.sendall(b"\x94\xa1a\xce\x00\x00\x00\x01" + record + b"\x81\xa5chunk\xa4%04d" % number)

    def told(self, number):
        """Waits for the acknowledgement of a request."""
        got = self.source.recv(4096)
        if got != b"\x81\xa3ack\xa4%04d" % number:
            raise SystemExit(f"told {got!r}")

    def close(self):
        """Ends the relay."""
        self.relay.kill()


def frame(link):
    """The name of the chunk of the next frame, which is its last 24 bytes."""
    got = b""
    while got[-2:] != b"==":
        got += link.recv(65536)
    return got[-24:]


def acknowledge(link, name):
    """Acknowledges a chunk by its name."""
    link.sendall(b"\x81\xa3ack\xb8" + name)


def row(name, times):
    times.sort()
    last = len(times) - 1
    picked = (times[last // 2], times[last * 99 // 100], times[last])
    print(f"{name}: median %.3f, 99 of 100 below %.3f, all below %.3f ms" % tuple(1000 * t for t in picked), flush=True)


def measure(name, site, count, lag):
    """Requests, each of which closes the chunk of the one that came `lag` before it."""
    there, back, link = [], [], None
    for number in range(count + lag + 1):
        start = time.perf_counter()
        site.send(number)
        if number < lag:
            continue
        is_first = link is None
        link = link or site.accept()
        named = frame(link)
        came = time.perf_counter()
        acknowledge(link, named)
        site.told(number - lag)
        end = time.perf_counter()
        if not is_first:
            there.append(came - start)
            back.append(end - came)
        time.sleep(0.02)
    row(f"{name}, there", there)
    row(f"{name}, back", back)
    site.close()


def idle(site, workers):
    links = []
    for number in range(workers):
        site.send(number)
    for _ in range(workers):
        link = site.accept()
        links.append((link, frame(link)))
    for link, name in links:
        acknowledge(link, name)
    time.sleep(1)
    before = site.relay.processor()
    time.sleep(10)
    spent = site.relay.processor() - before
    print(f"{workers} idle workers: %.1f %% of one core" % (10 * spent))
    site.close()


def main():
    program = sys.argv[1]
    count = int(sys.argv[2]) if len(sys.argv) > 2 else 300
    with tempfile.TemporaryDirectory() as folder:
        measure("by time", Site(program, folder, 0, 8000000, 1), count, 0)
        measure("by size", Site(program, folder, 60000, 64, 1), count, 1)
        idle(Site(program, folder, 0, 64, 16), 16)


main()
