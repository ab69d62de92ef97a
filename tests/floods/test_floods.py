"""A source that sends as fast as it is taken holds up no other, and memory stays bounded.

Each flood is a process of its own that sends one short request again and again and reads what it is told. Another source sends
a request behind the acknowledgement of the one before. What it waits is nobody's fault where the machine is busy: so these are
not among the quick ones.
"""

import multiprocessing
import time

import pytest

from forward import connect

EMPTY = b"\x92\xa1a\x90"  # a request of no entries under the tag `a`
ONE = b"\x93\xa1a\x00\x80"  # one of one entry, of three bytes as it is kept
ASKED = b"\x94\xa1a\x00\x80\x81\xa5chunk\xa1x"  # the same, which is acknowledged
SECONDS = 10
TOTAL = 64_000_000  # bytes of entries that the output holds, and as many beside them
BASE = 40_000_000  # what a relay takes that holds nothing, its buffers, and the sockets' pieces


def flood(port, part):
    """Sends a request until the relay closes or the process is ended."""
    pieces = part * (65_536 // len(part))
    with connect(port, None) as stream:
        stream.link.setblocking(False)
        left = memoryview(pieces)
        while True:
            try:
                left = left[stream.link.send(left) :] or memoryview(pieces)
            except BlockingIOError:
                time.sleep(0.0005)
            try:
                stream.link.recv(65_536)
            except BlockingIOError:
                pass


def round_trips(relay, seconds):
    """How long each of many requests waited for its acknowledgement, in milliseconds, the longest last."""
    waits, end = [], time.monotonic() + seconds
    source = relay.source()
    while time.monotonic() < end:
        start = time.monotonic()
        source.ask("probe")
        waits.append(1e3 * (time.monotonic() - start))
        time.sleep(0.002)
    return sorted(waits)


@pytest.mark.minutes
@pytest.mark.parametrize("count", [1, 8])
@pytest.mark.parametrize("part", [EMPTY, ONE, ASKED], ids=["empty", "one", "asked"])
def test_round_trip_beside_floods(relay, next_hop, part, count):
    hop = next_hop()
    one = relay([{"servers": [hop.port], "total_limit": TOTAL}])
    floods = [multiprocessing.Process(target=flood, args=(one.port, part), daemon=True) for _ in range(count)]
    for process in floods:
        process.start()
    try:
        waits = round_trips(one, SECONDS)
        memory = one.memory()
    finally:
        for process in floods:
            process.kill()
            process.join()
    slow = waits[len(waits) * 99 // 100]
    assert slow < 50, f"of {len(waits)} one in a hundred waited {slow:.0f} ms, the longest {waits[-1]:.0f}"
    assert memory < BASE + 2 * TOTAL
