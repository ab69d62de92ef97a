"""A relay at work for an hour under a mixed load: what it takes, minute after minute, and that this does not rise.

The load, at once (load.py): requests of 1, of 100 and of 10,000 entries of about 200 bytes, under tags that change each
second; connections that stay for some seconds, that come for one request, that break off within one, and that send what is
no request; a server that is ended and started again; and a second output, whose server now and then acknowledges nothing, so
that it fills up to its total limit and its sources are closed, and empties again.

A line a minute says entries a second that were accepted and settled, the greatest resident memory and count of open files of
that minute, processor seconds for a million settled entries, entries that are not acknowledged at its end, and how many of
the sources' connections broke off. `pytest -s` shows them, and picture.py draws them. SOAK_MINUTES names another time: less
than ten minutes says little, since the first tenth is what all others are held against.

What the load can have held is bounded, so a tenth and 4 MB above the first tenth leave room for what the C library keeps
between, and for no leak.
"""

import os
import sys
import threading
import time

import pytest

from relay import TOP, Child, free_ports, until
from soak import load as loads

MINUTES = int(os.environ.get("SOAK_MINUTES", "60"))
WAITS = {"flush_interval": 50, "retry_wait": 100, "retry_max": 500}


class Server(Child):
    """A next hop, which is ended and started again."""

    def __init__(self, port, said):
        super().__init__([], said, port)
        self.start_as("quiet")

    def start_as(self, way):
        """Starts it: a silent one acknowledges nothing."""
        self.words = [sys.executable, TOP / "tools" / "next_hop.py", str(self.port), way]
        self.start()


class Weather(threading.Thread):
    """In each round the main server is away for a while, and the second acknowledges nothing for a while."""

    def __init__(self, main, second, seconds):
        super().__init__(daemon=True)
        self.main, self.second, self.seconds = main, second, seconds
        self.stopped = threading.Event()
        self.start()

    def run(self):
        """Until it is stopped."""
        while True:
            for share, change in self.changes():
                if self.stopped.wait(share * self.seconds):
                    return
                change()

    def changes(self):
        """What happens in a round, each behind its share of it."""
        yield 0.2, self.main.kill
        yield 0.1, lambda: self.main.start_as("quiet")
        yield 0.1, lambda: (self.second.kill(), self.second.start_as("silent"))
        yield 0.3, lambda: (self.second.kill(), self.second.start_as("quiet"))
        yield 0.3, lambda: None

    def clear(self):
        """Both are there again."""
        self.stopped.set()
        self.join()
        for server in (self.main, self.second):
            server.kill()
            server.start_as("quiet")


def counts(one):
    """Accepted, settled and held entries, over both outputs."""
    outputs = one.page()
    return [sum(getattr(output, name) for output in outputs) for name in ("accepted", "settled", "held")]


def minute(one, number, memory, files, load):
    """Looks each second for a minute, and says its line."""
    accepted, settled, _ = counts(one)
    start, spent, broken = time.monotonic(), one.processor(), load.broken
    while time.monotonic() < start + 60:
        time.sleep(1)
        memory.append(one.memory())
        files.append(one.files())
    accepted_now, settled_now, held = counts(one)
    took, millions = time.monotonic() - start, (settled_now - settled) / 1e6
    print(
        f"minute {number} accepted/s {(accepted_now - accepted) / took:.0f} settled/s {1e6 * millions / took:.0f}"
        f" MB {max(memory[-50:]) / 1e6:.1f} files {max(files[-50:])}"
        f" cpu_s/M {(one.processor() - spent) / millions if millions else 0:.2f}"
        f" unacknowledged {held} broken {load.broken - broken}",
        flush=True,
    )


def rises(looked, slack):
    """The most of the first tenth and of what came later, where that is above it."""
    tenth = len(looked) // 10
    first, later = max(looked[:tenth]), max(looked[tenth:])
    return (first, later) if later > first * 1.1 + slack else None


@pytest.mark.hour
def test_nothing_rises(relay, tmp_path):
    """Neither memory nor open files rise, and nothing is left behind the load."""
    main, second = (Server(port, tmp_path / f"server-{port}") for port in free_ports(2))
    outputs = [
        {"match": "soak.**", "workers": 2, "window": 2, "ack_wait": 5000, "chunk_limit": 1_000_000},
        {"match": "fill.**", "ack_wait": 3000, "chunk_limit": 500_000, "total_limit": 3_000_000},
    ]
    one = relay([output | WAITS | {"servers": [server.port]} for output, server in zip(outputs, (main, second))])
    time.sleep(1)
    before = one.files()
    weather = Weather(main, second, min(60, MINUTES * 3))
    load = loads.Load(one.port)
    memory, files = [], []
    try:
        for number in range(1, MINUTES + 1):
            minute(one, number, memory, files, load)
        weather.clear()
        load.stop()
        until(lambda: counts(one)[2] == 0, lambda: f"{counts(one)[2]} entries are not acknowledged")
        until(lambda: one.files() <= before + 3, lambda: f"{one.files()} files are open, {before} before the load")
    finally:
        weather.stopped.set()
        load.stopped.set()
        main.kill()
        second.kill()
    assert not load.wrong, load.wrong
    assert not rises(memory, 4_000_000), f"resident memory: {rises(memory, 4_000_000)}"
    assert not rises(files, 2), f"open files: {rises(files, 2)}"
