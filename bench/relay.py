#!/usr/bin/python3
"""How fast the relay hands on entries, beside a bare proxy, the least that a relay does and rsyslog, and what it takes.

    /usr/bin/python3 bench/relay.py

Run at the top of the repository, on a quiet machine: the whole takes at most about ten minutes, and all programs of a row
share the cores. It needs cc, python3-msgpack and Debian's socat, rsyslog and rsyslog-relp, which it installs where they are
measured and absent. It proves and builds crates/forward_relay, unless RELAY names a built program, and listens at free ports
of 127.0.0.1 only. It ends with 1 where a row failed.

    RELAY=PATH          the program
    BEFORE=PATH         another build of it, measured as `before 0 1` right ahead of `relay`, to compare the two
    QUICK=1             a small run of some seconds, to see that all works
    ENTRIES=1000000     entries of a row; a fifth of them with one entry in a request, and over RELP (QUICK: 20000)
    WINDOW=4            unacknowledged requests of a connection
    SECONDS_MOST=5      seconds after which a row sends no more, also where it has not sent all its entries
    TIMEOUT=60          seconds after which a row has failed
    WAYS="direct socat least relay rsyslog"     which ways are measured
    READERS="1 2 4"     with so many reading threads rows are measured of their own (none); where it is given, only these
    MINUTES=0           so many minutes more, at the end, for which one relay is at work (QUICK: of two seconds each)

The ways, from bench/relay/generator.c to bench/relay/sink.c (for RELP relp_generator.c and relp_sink.c):

    direct          nothing between: what the two can do at most
    socat           `socat TCP-LISTEN,fork TCP`, a process a connection, which copies bytes and knows nothing of them
    least           bench/relay/least.c, a relay in C of the relay's shape that does the least: the floor
    relay F W N     forward_relay with flush_interval F ms, W workers and, where N is not 1, a window of N chunks
    before 0 1      the same, of the program BEFORE
    rsyslog         rsyslogd with imrelp and omrelp, a message for an entry, one in a frame, at most 128 unanswered a
                    connection. It answers a message once it is in its own queue, in memory, and not once the next hop has
                    it: so it promises less than the relay. Its time ends when relp_sink, behind it, has all of them.

Entries are about 200 bytes, and MB/s counts them alone, as they are once packed (a MB is 10^6 bytes). The time is that from the
first byte that the generator sends to the last acknowledgement that it gets. `cpu s/M` are the processor seconds of the process
in the middle for a million entries, its start included, of socat with its children; `MB` is its greatest resident memory
(VmHWM), of socat the greatest sum over its processes, in which pages that they share count for each.

`entries/r` are the entries of a request, which is in PackedForward mode and says how long they are together. With an F behind
the number it is in Forward mode, with an M in Message mode, where entries have to be walked to find where they end: by `least`
and the relay, which hand on all in PackedForward mode, and in the ways `direct` and `socat` by the sink. A row has failed where
not all was acknowledged in time, or where what came to the sink is not exactly what was sent.

Behind the rows: 1,000 connections with 100 requests each that are not acknowledged (idle); round trips of one request at a time;
what the calls that receive and those that send take of the relay's processor time, by perf's samples, for which it needs no
counters of the processor (shares); a request of 8,000,000 bytes in pieces (pieces.py); requests of 200,000 bytes over chunks of
50,000 (spans); a sink 10 ms away either way (delay.py), with chunks of 20,000 bytes and a window of 1 and of 8 (far); and the
minutes, over which neither what a million entries take is to rise nor the memory. The ratios are of what was measured, `best`
of the faster of `relay 0 1` and `relay 0 1 8`; `-` stands where one of the two was not measured, has failed, or took less
processor time than the system's clock shows.
"""

import contextlib
import os
import pathlib
import re
import resource
import shutil
import signal
import subprocess
import sys
import tempfile
import time
from typing import NamedTuple, Optional

TOP = pathlib.Path(__file__).resolve().parents[1]
sys.path[:0] = [str(TOP / part) for part in ("tests", "tools")]
from relay import BUILT, HOST, Child, Relay, free_ports, until  # noqa: E402

SET = {name: value for name, value in os.environ.items() if value}
QUICK = SET.get("QUICK") == "1"
ENTRIES = int(SET.get("ENTRIES", 20_000 if QUICK else 1_000_000))
FIFTH, ENDLESS = ENTRIES // 5, 10_000_000_000
WINDOW, LIMIT, SECONDS = int(SET.get("WINDOW", 4)), int(SET.get("TIMEOUT", 60)), int(SET.get("SECONDS_MOST", 5))
NAMES = SET.get("WAYS", "direct socat least relay rsyslog").split()
PARTS = TOP / "bench" / "relay"
QUIET = {"FORWARD_RELAY_LOG": ""}
PROGRAMS = ("generator", "sink", "relp_generator", "relp_sink", "least")
PACKAGES = {"socat": ["socat"], "rsyslog": ["rsyslog", "rsyslog-relp"]}
FOLDER = pathlib.Path(tempfile.mkdtemp())  # of what is built and written
ROWS = [(connections, "100", ENTRIES) for connections in (1, 10, 100, 1000)]
ROWS += [(10, "1", FIFTH), (10, "10000", ENTRIES), (10, "100F", ENTRIES), (10, "1F", FIFTH), (10, "1M", FIFTH)]
HEAD = "{:<14} {:>6} {:>8} {:>10} {:>8} {:>8} {:>8}"
RATIO = "{:<14} {:>6} {:>8} {:>11} {:>11} {:>12} {:>15}"
RSYSLOG = """global(workDirectory="{folder}")
main_queue(queue.type="LinkedList" queue.size="100000" queue.timeoutEnqueue="600000")
module(load="imrelp")
module(load="omrelp")
input(type="imrelp" address="127.0.0.1" port="{port}" ruleset="on")
ruleset(name="on") {{ action(type="omrelp" target="127.0.0.1" port="{sink}") }}
"""

rates, costs, trips, failures = {}, {}, {}, []  # by way and row; round trips by way


def say(text, end="\n"):
    """Prints at once."""
    print(text, end=end, flush=True)


class Way(NamedTuple):
    """What is in the middle, and how it is set."""

    name: str
    flush: Optional[int] = None
    workers: Optional[int] = None
    chunks: Optional[int] = None  # the window of the output, where it is told
    readers: Optional[int] = None  # which a program of before may not have as a key
    outputs: Optional[int] = None
    chunk_limit: int = 8_000_000
    far: Optional[int] = None  # milliseconds

    def __str__(self):
        marks = ("", "", "", "", "r", "o")
        return " ".join(f"{mark}{it}" for mark, it in zip(marks, self) if it is not None)

    def outputs_to(self, port):
        """The outputs of a relay that is set so."""
        keys = {"flush_interval": self.flush, "chunk_limit": self.chunk_limit, "workers": self.workers}
        matches = [f"app.web.access.{number}" for number in range(self.outputs)] if self.outputs else ["**"]
        return [{"match": it, "window": self.chunks or 1, "servers": [port], **keys} for it in matches]


ONE = Way("relay", 0, 1)
ALL = {"relay": [ONE, Way("relay", 0, 4), Way("relay", 10, 1), Way("relay", 10, 4), Way("relay", 0, 1, 8)]}
if "BEFORE" in SET:
    ALL["relay"].insert(0, Way("before", 0, 1))


def ways(names):
    """These ways, with all settings of the relay."""
    return [way for name in names for way in ALL.get(name, [Way(name)])]


def word(child, name):
    """The word behind a name in what a program said, if it said that."""
    words = child.said().split()
    return words[words.index(name) + 1] if name in words else None


def family(child):
    """A process and its children."""
    pid = child.process.pid
    return [pid, *pathlib.Path(f"/proc/{pid}/task/{pid}/children").read_text().split()]


def memory(child):
    """The greatest resident memory of a process and its children, in MB."""
    size = 0
    for pid in family(child):
        with contextlib.suppress(OSError, TypeError):  # one that has ended by now is left out
            size += int(re.search(r"VmHWM:\s+(\d+)", pathlib.Path(f"/proc/{pid}/status").read_text())[1]) * 1024
    return size / 1e6


class Site:
    """A sink and what is in the middle."""

    def __init__(self, way):
        self.way, self.memory, self.children = way, 0.0, []

    def fill(self, sink, *words):
        """Starts all."""
        self.sink = self.begin(FOLDER / sink, *words, 0)
        port = self.port_of(self.sink)
        if self.way.far:
            port = self.port_of(self.begin(sys.executable, PARTS / "delay.py", self.way.far, port))
        self.port = port if self.way.name == "direct" else free_ports(1)[0]
        self.middle = self.middle_to(port)

    def begin(self, *words):
        """Starts a program."""
        self.children.append(Child(words, tempfile.mkstemp(dir=FOLDER)[1]).begin())
        return self.children[-1]

    def port_of(self, child):
        """The port that a program says it listens at."""
        return int(child.until(lambda: word(child, "port"), "it says no port"))

    def middle_to(self, sink):
        """What is in the middle, before the sink's port."""
        way = self.way
        if way.name == "socat":
            listen = f"TCP-LISTEN:{self.port},bind={HOST},fork,reuseaddr,nodelay,backlog=1024"
            return self.begin("socat", listen, f"TCP:{HOST}:{sink},nodelay")
        if way.name == "least":
            return self.begin(FOLDER / "least", self.port, sink, way.readers or 1)
        if way.name == "rsyslog":
            path = FOLDER / "rsyslog.conf"
            path.write_text(RSYSLOG.format(folder=FOLDER, port=self.port, sink=sink))
            return self.begin("rsyslogd", "-n", "-f", path, "-i", FOLDER / "rsyslog.pid")
        if way.name in ("relay", "before"):
            keys = {"port": self.port, "monitor": None, "connections": 1024, "readers": way.readers}
            one = Relay(SET[way.name.upper()], FOLDER, way.outputs_to(sink), environment=QUIET, **keys)
            self.children.append(one.begin())
            return one

    def generate(self, *words, program="generator", limit=LIMIT):
        """Runs a generator to its end, and looks at the memory of socat's processes meanwhile."""
        made = self.begin(FOLDER / program, "--timeout", limit, *words, HOST, self.port)
        while self.way.name == "socat" and made.is_up():
            self.memory = max(self.memory, memory(self.middle))
            time.sleep(0.2)
        assert made.ended(None) == 0, made.said().strip()
        if self.middle and self.way.name != "socat":
            self.memory = memory(self.middle)
        return made

    def requests(self, connections, size, total, seconds=SECONDS, window=WINDOW, limit=LIMIT):
        """Sends requests of some entries; the letter behind their number is their mode."""
        mode = {"F": "forward", "M": "message"}.get(size[-1], "packed")
        words = ["--mode", mode, "--connections", connections, "--entries", size.rstrip("FM"), "--total", total]
        words += ["--tags", self.way.outputs or 1, "--window", window, "--seconds", seconds]
        return self.generate(*words, limit=limit)

    def cost(self, count):
        """The processor seconds for a million entries of what is in the middle, printed with its memory."""
        if self.middle is None:
            say(" {:>8} {:>8}".format("-", "-"))
            return 0.0
        if self.way.name == "socat":  # the time of its children counts once they have ended
            until(lambda: len(family(self.middle)) == 1, "a child of socat goes on", 5)
        cost = self.middle.processor() / count * 1e6
        say(f" {cost:8.2f} {self.memory:8.1f}")
        return cost


@contextlib.contextmanager
def site(way, *sink, about=""):
    """A site that ends with its block, whose failure is told and counted."""
    one = Site(way)
    try:
        one.fill(*(sink or ["sink"]))
        yield one
    except AssertionError as why:
        say(f"    FAILED: {about}{why}")
        failures.append(way)
    finally:
        for child in reversed(one.children):
            child.end()


def row(way, connections, size, total, **how):
    """A row of the Forward Protocol: the sink gets exactly what was sent."""
    with site(way) as one:
        say(f"{str(way):<14} {connections:6} {size:>8}", "")
        made = one.requests(connections, size, total, **how)
        say(f" {word(made, 'entries/s'):>10} {word(made, 'MB/s'):>8}", "")
        cost = one.cost(int(word(made, "entries")))
        one.sink.end()
        for name in ("entries", "bytes"):
            sent, got = word(made, name), word(one.sink, name)
            assert sent == got, f"{name}: sent {sent}, at the sink {got}"
        at = str(way), (connections, size)
        rates[at], costs[at] = float(word(made, "entries/s")), cost


def relp_row(way, connections, total):
    """A row of RELP: its time ends when the last sink has all of them."""
    with site(way, "relp_sink", total) as one:
        say(f"{str(way):<14} {connections:6} {1:8}", "")
        made = one.generate("--connections", connections, "--total", total, program="relp_generator")
        full = float(one.sink.until(lambda: word(one.sink, "full"), "it has not all", LIMIT))
        took, count = full - float(word(made, "start")), int(word(one.sink, "entries"))
        one.memory = memory(one.middle)
        say(f" {count / took:10.0f} {int(word(one.sink, 'bytes')) / took / 1e6:8.1f}", "")
        one.cost(count)


def rows(way):
    """All rows of a way."""
    if way.name == "rsyslog":
        for connections, *_ in ROWS[:4]:
            relp_row(way, connections, FIFTH)
    else:
        for each in ROWS:
            row(way, *each)


def reader_rows(count):
    """The rows of so many reading threads, of least and the relay: with one output, and of the relay with four, by tag."""
    for way in (Way("least"), ONE, ONE._replace(outputs=4)):
        for each in [(10, "100", ENTRIES), (100, "100", ENTRIES), (10, "1", FIFTH)]:
            if not (way.outputs and each[0] == 100):
                row(way._replace(readers=count), *each)


def idle(workers):
    """What the relay takes of a core while connections wait, and how long it is busy once they have gone."""
    connections, seconds = (100, 3) if QUICK else (1000, 10)
    with site(Way("relay", 0, workers), "sink", "--silent", about="idle: ") as one:
        words = ["--connections", connections, "--entries", 1, "--window", 100, "--hold", seconds + 3]
        made = one.begin(FOLDER / "generator", *words, "--timeout", LIMIT, HOST, one.port)
        made.until(lambda: word(made, "holding"), "it holds nothing", LIMIT)
        time.sleep(2)
        before = one.middle.processor()
        time.sleep(seconds)
        share = 100 * (one.middle.processor() - before) / seconds
        say(f"idle, {connections} connections with 100 requests each, workers {workers}: {share:.2f} % of a core")
        assert made.ended(None) == 0, made.said()
        looked = [one.middle.processor()]
        while len(looked) < 2 or len(looked) < 61 and looked[-1] - looked[-2] >= 0.2:
            time.sleep(1)
            looked.append(one.middle.processor())
        took, busy = looked[-1] - looked[0], len(looked) - 1
        say(f"    once all have closed: {took:.2f} processor seconds, busy for at most {busy} s")


def latency(way):
    """Round trips in milliseconds: median and 99th percentile, and what they are more than those of the direct way."""
    with site(way) as one:
        made = one.generate("--window", 1, "--entries", 1, "--total", 300 if QUICK else 3000, "--latency")
        mine = trips[str(way)] = float(word(made, "median_ms")), float(word(made, "p99_ms"))
        more = [own - least for own, least in zip(mine, trips.get("direct", mine))]
        say("{:<14} {:8.3f} {:8.3f} {:12.3f} {:8.3f}".format(str(way), *mine, *more))


def share(size):
    """What the calls that receive and those that send take, of perf's samples."""
    path = FOLDER / f"perf-{size}"
    with site(ONE) as one:
        words = "perf record -q -e cpu-clock -F 999 -g -p".split()
        perf = one.begin(*words, one.middle.process.pid, "-o", path)
        until(lambda: path.exists() and path.stat().st_size, "perf writes nothing", 10)
        time.sleep(0.3)
        one.requests(10, size, ENDLESS, 1 if QUICK else 3)
        perf.end()
        words = "perf report --stdio --children -g none --sort dso,sym -i".split()
        told = subprocess.run([*words, path], capture_output=True, text=True).stdout
        parts = []
        for calls in ("recv|recvfrom|recvmsg|read|readv", "send|sendto|sendmsg|writev"):
            line = rf"^ *([\d.]+)% +\S+ +libc[.-]\S* +\S+ +_*(?:GI_+)?(?:libc_)?(?:{calls})\s*$"
            parts.append(sum(map(float, re.findall(line, told, re.MULTILINE))))
        samples = re.search(r"^# Samples: (\S+)", told, re.MULTILINE)
        text = samples and f"receiving {parts[0]:.1f} %, sending {parts[1]:.1f} % of {samples[1]} samples"
        say(f"shares, 10 connections, {size:>4} entries/r: {text or 'no samples'}")


def shares():
    """The shares of each kind of request."""
    words = ["perf", "record", "-q", "-e", "cpu-clock", "-g", "-o", FOLDER / "perf", "true"]
    if not shutil.which("perf") or subprocess.run(words, capture_output=True).returncode != 0:
        say("shares: left out, since perf takes no samples here")
        return
    for size in ("100", "100F", "1F", "1M"):
        share(size)


def pieces():
    """A long request in small pieces."""
    with site(ONE) as one:
        one.generate("--total", 1, "--entries", 1)
        for mode, piece in [(mode, piece) for mode in ("forward", "packed") for piece in (65536, 1448)]:
            words = [one.port, mode, 1_000_000 if QUICK else 8_000_000, piece, 200, one.middle.process.pid]
            done = subprocess.run([sys.executable, PARTS / "pieces.py", *map(str, words)])
            assert done.returncode == 0, "pieces"


def minutes(count):
    """One relay at work, minute after minute."""
    seconds = 2 if QUICK else 60
    with site(ONE) as one:
        for minute in range(1, count + 1):
            before = one.middle.processor()
            made = one.requests(10, "100", ENDLESS, seconds, limit=seconds + 60)
            cost = (one.middle.processor() - before) / int(word(made, "entries")) * 1e6
            rate = int(word(made, "entries/s"))
            say(f"minute {minute:2}: {rate:9} entries/s, cpu s/M {cost:.2f}, MB {one.memory:.1f}")


def over(figures, one, other, at):
    """A figure of one way over that of another."""
    mine, its = figures.get((one, at), 0), figures.get((other, at), 0)
    return f"{mine / its:.2f}" if mine > 0 and its > 0 else "-"


def ratio(name, at, label=None):
    """A line of ratios, of what was measured."""
    if (name, at) in rates:
        parts = [over(rates, name, other, at) for other in ("least", "socat", "before 0 1")]
        say(RATIO.format(label or name, *at, *parts, over(costs, name, "socat", at)))


def ratios():
    """Entries a second and processor time over those of other ways, of all rows that `socat` or `least` has too."""
    known = dict.fromkeys(at for name, at in rates if name in ("socat", "least"))
    singles = [(10, size) for size in ("1", "1F", "1M")]
    for at in known:
        ratio("relay 0 1", at)
    for at in singles:
        best = max("relay 0 1", "relay 0 1 8", key=lambda name: rates.get((name, at), 0))
        ratio(best, at, f"best, {best[6:]}")
    for at in known:
        ratio("before 0 1", at)
    parts = [f"{size}: {over(rates, 'relay 0 4', 'relay 0 1', (10, size))}" for _, size in singles]
    say("entries/s of relay 0 4 over relay 0 1, with 10 connections and 1 entry/r" + ", ".join(parts)[1:])
    for name in ("before 0 1", "relay 0 1"):
        if name in trips and "direct" in trips:
            figures = zip(("median", "99th"), trips[name], trips["direct"])
            parts = [f"{it} {own / least:.2f} ({own:.3f}, {least:.3f} ms)" for it, own, least in figures]
            say(f"round trip of {name} over the direct one: {', '.join(parts)}")


def measure():
    """All that is measured, in its order."""
    for way in ways(NAMES):
        rows(way)
    for workers in (1, 4):
        idle(workers)
    say("round trips in ms: median, 99th percentile, and both less those of the direct way")
    for way in ways(["direct", *(name for name in NAMES if name in ("socat", "least", "relay"))]):
        latency(way)
    shares()
    pieces()
    say("spans: ", "")
    row(ONE._replace(chunk_limit=50_000), 1, "1000", 100_000, window=1, limit=10)
    for chunks in (1, 8):
        say("far: ", "")
        row(ONE._replace(chunks=chunks, chunk_limit=20_000, far=10), 10, "100", ENTRIES, window=1, limit=10)
    minutes(int(SET.get("MINUTES", 0)))
    say(RATIO.format("ratios", "conns", "entries/r", "over least", "over socat", "over before", "cpu over socat"))
    ratios()


def prepare():
    """Installs what is absent, and builds what is to be built."""
    os.environ["PATH"] += ":/usr/sbin"
    absent = [name for name in NAMES if name in PACKAGES and not shutil.which({"rsyslog": "rsyslogd"}.get(name, name))]
    for words in [["update", "-q"], *(["install", "-qy", "--no-install-recommends", *PACKAGES[it]] for it in absent)]:
        if absent:
            subprocess.run(["apt-get", *words], check=True, stdout=sys.stderr)
    if "RELAY" not in SET:
        words = ["rt", "run", "--", "check", "../../examples/relay.toml"]
        subprocess.run(words, cwd=TOP / "crates" / "forward_relay", check=True, stdout=sys.stderr)
        SET["RELAY"] = str(BUILT)
    for program in PROGRAMS:
        files = [PARTS / f"{it}.c" for it in (program, "common", "entries")]
        subprocess.run(["cc", "-O2", "-Wall", "-Wextra", "-pthread", "-o", FOLDER / program, *files], check=True)
    most = resource.getrlimit(resource.RLIMIT_NOFILE)[1]
    resource.setrlimit(resource.RLIMIT_NOFILE, (most, most))


def main():
    for number in (signal.SIGHUP, signal.SIGTERM):
        signal.signal(number, lambda *_: sys.exit(1))
    try:
        prepare()
        cores = len(os.sched_getaffinity(0))
        say(f"cores {cores}, entries in each row: {ENTRIES}, unacknowledged requests of a connection {WINDOW}")
        say(HEAD.format("way", "conns", "entries/r", "entries/s", "MB/s", "cpu s/M", "MB"))
        if "READERS" in SET:
            for count in SET["READERS"].split():
                reader_rows(int(count))
        else:
            measure()
    finally:
        shutil.rmtree(FOLDER)
    if failures:
        sys.exit(f"failed: {len(failures)}")


main()
