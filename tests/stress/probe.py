"""Asks a relay again and again, and says how long the longest answer took.

    python3 probe.py page PORT PIDS
    python3 probe.py source PORT PIDS [KEY]

`page` asks the monitor for its page, and `source` sends requests of one entry under the tag `probe`, each behind the
acknowledgement of the one before; with a KEY it logs in first. On each line of its standard input it says what was since the
line before, as JSON: how many answers there were, and the longest wait for one, in milliseconds, in two parts. One (`core`) is
the time that this process and the first threads of PIDS (joined by commas) waited for a core, which on a busy machine is
nobody's fault; the longest is the one that is the longest without it (`own`). It ends with its input.
"""

import json
import pathlib
import select
import socket
import sys
import time

sys.path[:0] = [str(pathlib.Path(__file__).parents[2] / part) for part in ("tests", "tools")]
from forward import HOST, Source  # noqa: E402

REST = 0.002  # seconds between two questions


class Cores:
    """How long threads waited for a core, all together."""

    def __init__(self, pids):
        self.paths = ["/proc/self/schedstat", *(f"/proc/{pid}/task/{pid}/schedstat" for pid in pids)]

    def waited(self):
        return sum(self.of(path) for path in self.paths)

    def of(self, path):
        try:
            with open(path) as file:
                return int(file.read().split()[1]) / 1e6
        except (OSError, IndexError):
            return 0.0


def ask_page(port):
    """Asks a monitor for its page."""
    with socket.create_connection((HOST, port), timeout=30) as stream:
        stream.sendall(b"GET / HTTP/1.1\r\nHost: probe\r\n\r\n")
        page = b""
        while more := stream.recv(65536):
            page += more
    assert page.startswith(b"HTTP/1.1 200"), page[:100]


def asker(kind, port, key):
    """What asks once."""
    if kind == "page":
        return lambda: ask_page(port)
    source = Source(port, *key)
    return lambda: source.ask("probe")


def phase(ask, cores):
    """What was until the next line of the input, and whether there was one."""
    count, own, core = 0, 0.0, 0.0
    while not select.select([0], [], [], REST)[0]:
        waited, start = cores.waited(), time.perf_counter()
        ask()
        clock = 1e3 * (time.perf_counter() - start)
        waited = min(clock, cores.waited() - waited)
        count += 1
        if clock - waited > own:
            own, core = clock - waited, waited
    return {"count": count, "own": own, "core": core}, sys.stdin.buffer.raw.read(1) != b""


def main(kind, port, pids, *key):
    """Asks until the input ends."""
    ask, cores = asker(kind, int(port), key), Cores(pids.split(","))
    print("{}", flush=True)
    goes_on = True
    while goes_on:
        try:
            told, goes_on = phase(ask, cores)
        except (OSError, AssertionError) as error:
            told = {"wrong": f"{type(error).__name__} {error}"}
            goes_on = sys.stdin.buffer.raw.read(1) != b""
        print(json.dumps(told), flush=True)
        goes_on = goes_on and "wrong" not in told


if __name__ == "__main__":
    main(*sys.argv[1:])
