#!/usr/bin/python3
"""What output.flush_interval costs a source that waits, and what it spares the next hop.

    /usr/bin/python3 bench/interval.py PROGRAM [--quick]

Run at the top of the repository, on a quiet machine: it takes about 12 minutes, with --quick a minute, to see that it
works. PROGRAM is a built forward_relay. It needs cc, and listens at free ports of 127.0.0.1 only. It ends with 1 where a
row failed.

A row is a relay with one output and one worker, between sources and bench/relay/sink.c: `here`, or behind
bench/relay/delay.py `10 ms` away, each way. The sources of a row are

    N x E ask      N sources of bench/relay/generator.c: each sends a request of E entries, waits until it is acknowledged,
                   and sends the next. `ms` is the time from the send to the acknowledgement.
    N x 1 never    N sources that never ask, and send as fast as the relay reads
    N x 1 paced    N sources that never ask, and send 1,000 entries a second together, one by one

An entry has about 200 bytes. Each row lasts 3 s (--quick: 0.8 s), and with a long interval more than twice that. Entries and
chunks are those that the next hop acknowledged in that time, by the metrics page. `relay` and `hop` are the processor time of
the relay and of the sink in % of a core: what chunks cost a receiver that does the least. Behind the rows there is a table for
each other figure, with a column for each interval.
"""

import contextlib
import os
import pathlib
import resource
import selectors
import socket
import subprocess
import sys
import tempfile
import time
from typing import NamedTuple

TOP = pathlib.Path(__file__).resolve().parents[1]
sys.path[:0] = [str(TOP / part) for part in ("tests", "tools")]
from relay import HOST, Child, Relay, until  # noqa: E402

PARTS = TOP / "bench" / "relay"
INTERVALS = (0, 10, 100, 1000, 5000)
SECONDS = 3.0
FAR = 10  # ms
PACE = 1000  # entries a second, of all sources that are paced
PIECE = 1 << 16
RECORD = b"\x81\xa7message\xd9\xb4" + b"x" * 180
REQUEST = b"\x93\xaeapp.web.access\xce\x65\x53\xf1\x00" + RECORD  # in Message mode
SETTLED = 'forward_relay_settled_entries_total{output="0"}'
CHUNKS = 'forward_relay_server_acknowledged_chunks_total{{output="0",place="0",server="127.0.0.1:{port}"}}'
HEAD = "{:<6} {:<14} {:>8} {:>11} {:>9} {:>9} {:>9} {:>6} {:>6}"
FIGURES = ("entries/s", "chunks/s", "median ms", "99th ms", "relay", "hop")


class Load(NamedTuple):
    """The sources of a row."""

    sources: int
    entries: int
    kind: str

    def __str__(self):
        return f"{self.sources} x {self.entries} {self.kind}"


class Counts(NamedTuple):
    """What was counted by a moment."""

    when: float
    entries: int
    chunks: int
    relay: float
    hop: float


LOADS = [Load(sources, entries, "ask") for sources in (1, 10, 1000) for entries in (1, 100)]
LOADS += [Load(sources, 1, "never") for sources in (1, 10, 1000)] + [Load(10, 1, "paced")]
QUICK = [Load(sources, 1, "ask") for sources in (1, 10, 1000)] + [Load(10, 1, "never"), Load(10, 1, "paced")]


class Site:
    """A sink, near or far, and a relay before it."""

    def __init__(self, program, folder, interval, far):
        self.folder, self.children = folder, []
        self.sink = self.begin(folder / "sink", 0)
        port = self.port_of(self.sink)
        if far:
            port = self.port_of(self.begin(sys.executable, PARTS / "delay.py", FAR, port))
        self.chunks = CHUNKS.format(port=port)
        outputs = [{"servers": [port], "flush_interval": interval, "full": "wait"}]
        keys = {"connections": 1024, "metrics": True, "environment": {"FORWARD_RELAY_LOG": ""}}
        self.relay = Relay(program, folder, outputs, **keys)
        self.children.append(self.relay)
        self.relay.start()

    def begin(self, *words):
        """Starts a program."""
        self.children.append(Child(words, tempfile.mkstemp(dir=self.folder)[1]).begin())
        return self.children[-1]

    def port_of(self, child):
        """The port that a program says it listens at."""
        return int(child.until(lambda: word(child, "port"), "it says no port"))

    def counts(self):
        """What is counted now."""
        entries, chunks = self.relay.metric(SETTLED), self.relay.metric(self.chunks)
        return Counts(time.monotonic(), entries, chunks, self.relay.processor(), self.sink.processor())

    def end(self):
        """Ends all."""
        for child in reversed(self.children):
            child.kill()


def word(child, name):
    """The word behind a name in what a program said, if it said that."""
    words = child.said().split()
    return words[words.index(name) + 1] if name in words else None


def asking(site, load, seconds):
    """Sources that wait for each acknowledgement: the counts around it, the median and the 99th percentile."""
    words = ["--mode", "forward", "--connections", load.sources, "--entries", load.entries, "--window", 1]
    words += ["--total", 5_000_000 * load.entries, "--seconds", max(1, round(seconds)), "--latency", "--timeout", 120]
    before = site.counts()
    made = site.begin(site.folder / "generator", *words, HOST, site.relay.port)
    assert made.ended(None) == 0, made.said().strip()
    after = site.counts()._replace(when=before.when + float(word(made, "seconds")))
    return before, after, float(word(made, "median_ms")), float(word(made, "p99_ms"))


def pushing(site, load, seconds):
    """Sources that send as fast as the relay reads: the counts around it."""
    data = memoryview(REQUEST * (PIECE // len(REQUEST)))
    before = site.counts()
    with contextlib.ExitStack() as stack, selectors.DefaultSelector() as ready:
        for link in links(site, load, stack):
            link.setblocking(False)
            ready.register(link, selectors.EVENT_WRITE, [0])
        while time.monotonic() - before.when < seconds:
            for key, _ in ready.select(0.1):
                key.data[0] = (key.data[0] + key.fileobj.send(data[key.data[0] :])) % len(data)
        return before, site.counts()


def pacing(site, load, seconds):
    """Sources that send one by one: the counts around it."""
    with contextlib.ExitStack() as stack:
        open_ones = links(site, load, stack)
        before, number = site.counts(), 0
        while time.monotonic() - before.when < seconds:
            open_ones[number % load.sources].sendall(REQUEST)
            number += 1
            time.sleep(max(0.0, before.when + number / PACE - time.monotonic()))
        return before, site.counts()


def links(site, load, stack):
    """The connections of sources, which end with a stack."""
    made = [stack.enter_context(socket.create_connection((HOST, site.relay.port))) for _ in range(load.sources)]
    until(lambda: site.relay.metric("forward_relay_sources_open") == load.sources, "not all are taken")
    return made


def row(program, folder, place, load, interval, seconds):
    """The figures of a row."""
    site = Site(program, folder, interval, place != "here")
    lasting = max(seconds, 2.2 * interval / 1000)
    try:
        if load.kind == "ask":
            before, after, *trips = asking(site, load, lasting)
        else:
            before, after = (pushing if load.kind == "never" else pacing)(site, load, lasting)
            trips = []
    finally:
        site.end()
    took = after.when - before.when
    entries, chunks, relay, hop = (now - then for now, then in zip(after[1:], before[1:]))
    return [entries / took, chunks / took, *(trips or [None, None]), 100 * relay / took, 100 * hop / took]


def shown(figure, name):
    """A figure as it is printed."""
    if figure is None:
        return "-"
    if name in ("entries/s", "chunks/s"):
        return f"{figure:,.0f}" if figure >= 10 else f"{figure:.1f}"
    return f"{figure:,.2f}" if "ms" in name else f"{figure:.0f}"


def tables(places, loads, intervals, found):
    """A table for each figure but the processor time: a line for each place and load, a column for each interval."""
    for number, name in enumerate(FIGURES[:4]):
        print(f"\n{name + ', flush_interval of':<30}" + "".join(f"{it:>11,}" for it in intervals))
        for place, load in [(place, load) for place in places for load in loads]:
            figures = [found.get((place, load, it), [None] * len(FIGURES))[number] for it in intervals]
            if any(it is not None for it in figures):
                print(f"{place:<6} {load!s:<23}" + "".join(f"{shown(it, name):>11}" for it in figures))


def main():
    """Measures all rows."""
    program, *words = sys.argv[1:]
    is_quick = words == ["--quick"]
    loads, intervals = (QUICK, INTERVALS[:3]) if is_quick else (LOADS, INTERVALS)
    most = resource.getrlimit(resource.RLIMIT_NOFILE)[1]
    resource.setrlimit(resource.RLIMIT_NOFILE, (most, most))
    found, failed, places = {}, 0, ("here", "10 ms")
    print(f"cores {len(os.sched_getaffinity(0))}")
    print(HEAD.format("hop", "sources", "interval", *FIGURES))
    with tempfile.TemporaryDirectory() as name:
        folder = pathlib.Path(name)
        for one in ("generator", "sink"):
            files = [PARTS / f"{it}.c" for it in (one, "common", "entries")]
            subprocess.run(["cc", "-O2", "-pthread", "-o", folder / one, *files], check=True)
        for place, load, interval in [(p, q, i) for p in places for q in loads for i in intervals]:
            try:
                figures = row(program, folder, place, load, interval, 0.8 if is_quick else SECONDS)
                found[place, load, interval] = figures
                said = map(shown, figures, FIGURES)
                print(HEAD.format(place, str(load), interval, *said), flush=True)
            except (AssertionError, OSError) as why:
                failed += 1
                print(f"{place:<6} {load!s:<14} {interval:>8} FAILED: {why}", flush=True)
    tables(places, loads, intervals, found)
    if failed:
        sys.exit(f"failed: {failed}")


main()
