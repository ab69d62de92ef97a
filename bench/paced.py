#!/usr/bin/python3
"""Shows whether the relay keeps up with sources at a steady pace, and how fast it catches up after an outage.

    /usr/bin/python3 bench/paced.py PROGRAM [PROGRAM ..] [OPTIONS]

Run it at the top of the repository, on a quiet machine. PROGRAM is a built forward_relay. If you name several, each row
is measured for all of them in turn. It needs python3-msgpack, and listens only at free ports of 127.0.0.1. It ends with
1 if a row failed.

    --tags 1,8,50,500           tags; the entries go round them
    --rate 1000,20000           entries a second, of all tags together
    --delay 0,1,10,100          milliseconds after which the next hop acknowledges a chunk
    --workers 1x1,1x8,8x1       workers of the output, and the window of each
    --interval 0,100,1000       flush_interval in milliseconds
    --seconds 4                 how long the sources of a row send
    --all                       every combination of the values above: 288 rows
    --quick                     twelve rows of two seconds, to see that all works
    --recovery 2,10,60          other rows: the next hop is away for so many seconds

The base row has 8 tags, 1,000 entries a second, 10 ms, one worker with a window of 1, and flush_interval 0. Without
options, every row differs from it in at most two values: 59 rows, five minutes for each program. If you give lists, all
their combinations are measured; a value without a list is that of the base row.

Each entry has 100 bytes, and is a request of its own in Message mode. The sources have at most ten connections, and do
not ask for acknowledgements (bench/relay/paced_source.py). The next hop delays each chunk by itself
(bench/relay/paced_hop.py). Both are Python: at 20,000 entries a second the sources take a sixth of a core, and the next
hop up to half of one, by the number of chunks.

    sent, arrived   entries, at the moment at which the sources stop
    held, chunks    entries and chunks that the relay holds then, by its monitor's page
    oldest ms       age of the oldest entry that has not arrived by then
    median, 99th    milliseconds from a source's write to the arrival at the next hop, without the entries of the first
                    second
    a chunk         entries a chunk, on average
    cpu s           processor seconds of the relay
    bound ms        the time that an entry may take, by arithmetic. N tags share k = workers x window chunks in flight,
                    each for a round trip T. So a tag's chunk waits for ceil(N / k) round trips, and then takes its own,
                    whatever the rate. T is the delay and 0.5 ms. flush_interval is added, and the 2 ms that a chunk may
                    stay open.
    of bound        the greater one of `oldest` and `99th`, divided by the bound
    BEHIND          `oldest` is above twice the bound and 0.1 s: the relay does not carry what arithmetic allows. A row
                    that is shorter than its bound cannot show this.
    late            the machine did not let the sources send in time. Measure that row again.
    twice           entries that came more than once

In a recovery, chunk_limit is so small that the output carries twice the rate. So the relay needs as long to catch up as
the next hop was away. It tries the next hop again each second.

    held, chunks    entries and chunks that the relay holds when the next hop is back
    young after     seconds from then until the oldest chunk is younger than a second (or than twice the bound of the
                    row, if that is longer), by the relay's metrics page
    bound s         the outage, and two seconds for the retries
    a chunk         entries a chunk, on average, after the return
    trip ms         time of a round trip after the return. If it is well above the delay and 0.5 ms, the machine is
                    busy, and the output cannot carry twice the rate.
    BEHIND          the relay took twice the bound and 5 s, or longer
"""

import argparse
import itertools
import json
import math
import pathlib
import subprocess
import sys
import tempfile
import time
from typing import NamedTuple

TOP = pathlib.Path(__file__).resolve().parents[1]
sys.path[:0] = [str(TOP / part) for part in ("tests", "tools")]
from relay import Child, Relay  # noqa: E402

PARTS = TOP / "bench" / "relay"
SIZE = 100  # bytes of an entry
OWN = 0.5  # ms of a round trip, beside the delay
OPEN = 2  # ms that a chunk stays open while another is in flight
SLACK = 100  # ms
LATE = 0.1  # seconds
ENDLESS = 1_000_000  # seconds
OLDEST = 'forward_relay_oldest_chunk_age_seconds{output="0"}'
RETRY = {"retry_wait": 1000, "retry_max": 1000}
ROW = "{:>5} {:>6} {:>5} {:>5} {:>8}"
HEAD = ROW.format("tags", "rate", "delay", "w x n", "interval")
FIGURES = "{:>8} {:>8} {:>8} {:>7} {:>9} {:>8} {:>8} {:>7} {:>6} {:>8} {:>8}"
NAMES = ("sent", "arrived", "held", "chunks", "oldest ms", "median", "99th", "a chunk", "cpu s", "bound ms", "of bound")
RECOVERY = "{:>8} {:>8} {:>7} {:>11} {:>7} {:>7} {:>7}"
RECOVERY_NAMES = ("outage s", "held", "chunks", "young after", "bound s", "a chunk", "trip ms")


class Row(NamedTuple):
    """The load and the settings of a row."""

    tags: int
    rate: int
    delay: int
    workers: tuple
    interval: int

    def __str__(self):
        workers, window = self.workers
        return ROW.format(self.tags, self.rate, self.delay, f"{workers}x{window}", self.interval)

    def in_flight(self):
        """How many chunks may be in flight."""
        return math.prod(self.workers)

    def trip(self):
        """The milliseconds of a round trip."""
        return self.delay + OWN

    def bound(self):
        """The milliseconds that an entry may take."""
        trips = math.ceil(self.tags / self.in_flight()) + 1
        return self.interval + OPEN + trips * self.trip()

    def chunk_limit(self):
        """The bytes of a chunk with which the output carries twice the rate."""
        return SIZE * math.ceil(2 * self.rate * self.trip() / 1000 / self.in_flight())


BASE = Row(8, 1000, 10, (1, 1), 0)
AXES = Row((1, 8, 50, 500), (1000, 20000), (0, 1, 10, 100), ((1, 1), (1, 8), (8, 1)), (0, 100, 1000))


class Peer(Child):
    """A program of bench/relay that prints lines of JSON."""

    def __init__(self, folder, name, *words):
        super().__init__([sys.executable, PARTS / f"{name}.py", *words], folder / f"said-{name}")
        with open(self.said_path, "ab") as errors:
            self.begin(stdin=subprocess.PIPE, stdout=subprocess.PIPE, stderr=errors, text=True)

    def hear(self):
        """The next line."""
        line = self.process.stdout.readline()
        if not line:
            raise AssertionError(" ".join(["a peer ended:", *self.said().splitlines()[-1:]]))
        return json.loads(line)

    def ask(self, word):
        """The answer to a word."""
        self.process.stdin.write(f"{word}\n")
        self.process.stdin.flush()
        return self.hear()


class Site:
    """A relay between its sources and its next hop. They end with the block."""

    def __init__(self, program, row, seconds, **keys):
        self.temporary = tempfile.TemporaryDirectory()
        self.children, folder = [], pathlib.Path(self.temporary.name)
        self.hop = self.add(Peer(folder, "paced_hop", row.delay, row.rate))
        workers, window = row.workers
        keys = {"workers": workers, "window": window, "flush_interval": row.interval} | keys
        outputs = [{"servers": [self.hop.hear()["port"]], **keys}]
        self.relay = self.add(Relay(program, folder, outputs, metrics=True, environment={"FORWARD_RELAY_LOG": ""}))
        self.relay.start()
        self.before = self.relay.processor()
        self.source = self.add(Peer(folder, "paced_source", self.relay.port, row.tags, row.rate, seconds))

    def add(self, child):
        """Notes a child that has to end."""
        self.children.append(child)
        return child

    def __enter__(self):
        return self

    def __exit__(self, *_):
        for child in reversed(self.children):
            child.kill()
        self.temporary.cleanup()

    def counts(self):
        """What the output holds."""
        return self.relay.page()[0]


def measured(program, row, seconds):
    """The figures of a row, and whether it is behind."""
    with Site(program, row, seconds) as site:
        made = site.source.hear()
        came, counts = site.hop.ask("report"), site.counts()
        spent = site.relay.processor() - site.before
    waits = came["missing"] < made["sent"]
    oldest = 1000 * (came["now"] - made["start"] - came["missing"] / row.rate) if waits else 0.0
    is_behind = oldest > 2 * row.bound() + SLACK
    shown = FIGURES.format(
        made["sent"],
        came["arrived"],
        counts.held,
        counts.chunks,
        f"{oldest:.0f}",
        *("-" if it is None else f"{it:.1f}" for it in (came["median"], came["p99"])),
        f"{came['arrived'] / max(1, came['chunks']):.1f}",
        f"{spent:.2f}",
        f"{row.bound():.0f}",
        f"{max(oldest, came['p99'] or 0) / row.bound():.2f}",
    )
    is_late, is_repeated = made["late"] > LATE, came["repeated"] > 0
    notes = " BEHIND" * is_behind + f" late {made['late']:.1f} s" * is_late + f" twice {came['repeated']}" * is_repeated
    return shown + notes, is_behind


def recovered(program, row, outage):
    """The figures of a recovery, and whether it is behind."""
    bound, took = outage + 2, None
    most, young = 2 * bound + 5, max(1, math.ceil(row.bound() / 500))
    with Site(program, row, ENDLESS, chunk_limit=row.chunk_limit(), **RETRY) as site:
        time.sleep(2)
        site.hop.ask("away")
        time.sleep(outage)
        site.hop.ask("back")
        back, counts, before = time.monotonic(), site.counts(), site.hop.ask("report")
        while took is None and time.monotonic() - back < most:
            time.sleep(0.1)
            if site.relay.metric(OLDEST) < young:
                took = time.monotonic() - back
        after = site.hop.ask("report")
    entries, chunks, seconds = (after[it] - before[it] for it in ("arrived", "chunks", "now"))
    shown = RECOVERY.format(
        outage,
        counts.held,
        counts.chunks,
        f"> {most}" if took is None else f"{took:.1f}",
        bound,
        f"{entries / max(1, chunks):.1f}",
        f"{1000 * row.in_flight() * seconds / max(1, chunks):.1f}",
    )
    return shown + " BEHIND" * (took is None), took is None


def chosen(options):
    """The rows that the options choose."""
    lists = AXES if options.all else [getattr(options, name) for name in Row._fields]
    if options.recovery or any(lists):
        return [Row(*values) for values in itertools.product(*(it or [base] for it, base in zip(lists, BASE)))]
    most = 1 if options.quick else 2
    rows = [Row(*values) for values in itertools.product(*AXES)]
    return [row for row in rows if sum(it != base for it, base in zip(row, BASE)) <= most]


def numbers(text):
    """A list of numbers."""
    return [int(word) for word in text.split(",")]


def shapes(text):
    """A list of workers and windows."""
    return [tuple(map(int, word.split("x"))) for word in text.split(",")]


def arguments():
    """What the arguments say."""
    parser = argparse.ArgumentParser(description=__doc__, formatter_class=argparse.RawDescriptionHelpFormatter)
    parser.add_argument("programs", nargs="+")
    for name in Row._fields:
        parser.add_argument(f"--{name}", type=shapes if name == "workers" else numbers)
    parser.add_argument("--seconds", type=int)
    parser.add_argument("--all", action="store_true")
    parser.add_argument("--quick", action="store_true")
    parser.add_argument("--recovery", type=numbers)
    return parser.parse_args()


def main():
    """Measures all rows of all programs."""
    options = arguments()
    names = dict(zip("ABCDEFGH", options.programs))
    if options.recovery:
        measure, lasting, head = recovered, options.recovery, RECOVERY.format(*RECOVERY_NAMES)
    else:
        measure, lasting, head = measured, [options.seconds or (2 if options.quick else 4)], FIGURES.format(*NAMES)
    behind, failed, rows = dict.fromkeys(names, 0), 0, list(itertools.product(chosen(options), lasting))
    print(*(f"{name} = {program}" for name, program in names.items()), f"  {HEAD} {head}", sep="\n", flush=True)
    for (row, seconds), name in itertools.product(rows, names):
        try:
            shown, is_behind = measure(names[name], row, seconds)
        except (AssertionError, OSError) as why:
            shown, is_behind, failed = f"FAILED: {why}", False, failed + 1
        behind[name] += is_behind
        print(f"{name} {row} {shown}", flush=True)
    for name, count in behind.items():
        print(f"{name}: {count} of {len(rows)} rows are behind")
    if failed:
        sys.exit(f"failed: {failed}")


main()
