"""Sources send at a steady pace, far below what the relay can carry. It keeps up, and catches up after an outage.

The tests count chunks, so that a slow machine passes them too. Only the last one measures a time, and it may try again.
"""

import threading
import time

import pytest

from next_hop import later

pytestmark = pytest.mark.quick
RATE = 1_000  # entries a second, of all tags together
FEW = 10  # chunks that arrive after an outage: one of them has only entries that were sent after it
OLDEST = 'forward_relay_oldest_chunk_age_seconds{output="0"}'


class Pace(threading.Thread):
    """A source that sends entries one by one while its block runs. The entries go round its tags."""

    def __init__(self, relay, tags, rate=RATE):
        super().__init__(daemon=True)
        self.source, self.tags, self.rate = relay.source(), tags, rate
        self.sent, self.is_over = 0, threading.Event()

    def __enter__(self):
        self.start()
        return self

    def __exit__(self, *_):
        self.is_over.set()
        self.join()

    def run(self):
        """Sends each entry at its time, or at once if the machine is late."""
        start = time.monotonic()
        while not self.is_over.wait(start + self.sent / self.rate - time.monotonic()):
            record = {"sent": time.monotonic()}
            self.source.send(f"tag.{self.sent % self.tags}", [(self.sent, record)], "message")
            self.sent += 1


class Arrivals:
    """Counts the entries that a next hop gets. Notes when each chunk came, and when its first entry was sent."""

    def __init__(self):
        self.chunks, self.entries = [], 0

    def __call__(self, frame):
        came, entries = time.monotonic(), frame.entries()
        self.chunks.append((entries[0][2]["sent"], came))
        self.entries += len(entries)


def most_chunks(one, seconds):
    """The greatest number of chunks that the output holds within some seconds."""
    end, most = time.monotonic() + seconds, 0
    while time.monotonic() < end:
        most = max(most, one.page()[0].chunks)
        time.sleep(0.02)
    return most


def chunks_allowed(tags):
    """How many chunks an output may hold that has one in flight: of each tag one is open, and one is closed and waits.

    The relay closes chunks only when it can send one.
    """
    return 2 * tags + 1


def restarted(one, hop, arrivals, seconds):
    """Restarts the next hop, which is away for some seconds: how long it then takes until a chunk arrives."""
    hop.end()
    time.sleep(seconds)
    hop.start()
    back = time.monotonic()
    one.until(lambda: arrivals.chunks[-1][1] >= back, "nothing arrives after the restart")
    return time.monotonic() - back


@pytest.mark.parametrize(
    ("tags", "rate", "delay", "interval"),
    [(8, RATE, 0.01, 0), (50, RATE // 2, 0.005, 0), (8, RATE, 0.05, 100)],
    ids=["8 tags", "50 tags", "8 tags, flush_interval 100"],
)
def test_keeps_up(relay, next_hop, tags, rate, delay, interval):
    """The next hop takes some milliseconds for each chunk. The chunks become larger, and not more."""
    arrivals = Arrivals()
    hop = next_hop(answer=later(delay), take=arrivals)
    one = relay([{"servers": [hop.port], "flush_interval": interval}])
    with Pace(one, tags, rate) as pace:
        most = most_chunks(one, seconds=2)
    assert most <= chunks_allowed(tags)
    one.await_settled(pace.sent)
    assert arrivals.entries == pace.sent


@pytest.mark.parametrize(("times", "seconds"), [(1, 3.0), (3, 0.3)], ids=["one long outage", "three short ones"])
def test_catches_up(relay, next_hop, times, seconds):
    """The next hop is away while the source goes on. Few chunks wait for it, so entries soon arrive young again."""
    arrivals = Arrivals()
    hop = next_hop(answer=later(0.02), take=arrivals)
    one = relay([{"servers": [hop.port]}], metrics=True)
    with Pace(one, tags=1):
        one.until(lambda: arrivals.chunks, "nothing arrives")
        for _ in range(times):
            hop.end()
            most = most_chunks(one, seconds)
            hop.start()
            back, before = time.monotonic(), len(arrivals.chunks)
            one.until(lambda: len(arrivals.chunks) >= before + FEW, "few chunks arrive")
            assert any(sent >= back for sent, _ in arrivals.chunks[before : before + FEW]), f"{most} chunks waited"
            assert most <= chunks_allowed(tags=1)
        one.until(lambda: one.metric(OLDEST) == 0, "an old chunk is left")


@pytest.mark.parametrize(("workers", "limit"), [(8, 3), (1, 2)], ids=["eight workers", "one worker"])
def test_a_restart_is_one_loss(relay, next_hop, workers, limit):
    """However many workers lose a next hop that restarts, the relay tries it again after one `retry_wait`, a second.

    A busy machine may spoil an attempt. A relay that counts a loss for each of eight workers waits for two minutes.
    """
    arrivals = Arrivals()
    hop = next_hop(answer=later(0.1), take=arrivals)
    one = relay([{"servers": [hop.port], "workers": workers, "retry_wait": 1_000, "retry_max": 600_000}])
    with Pace(one, tags=8):
        one.until(lambda: arrivals.entries >= RATE // 2, "few entries arrive")
        took = [restarted(one, hop, arrivals, 0.6)]
        while took[-1] >= limit and len(took) < 3:
            took.append(restarted(one, hop, arrivals, 0.6))
    assert took[-1] < limit, took
