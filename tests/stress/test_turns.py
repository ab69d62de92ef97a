"""One source must not occupy the loop: what it sends, and what it is owed, is to hold others up for at most 100 ms."""

import struct
import sys
import time

import pytest

from forward import Source, connect
from next_hop import hold
from relay import TOP, Child, free_ports, until
from stress.waits import RECORD, TIME, Owed, Probe, text, within

pytestmark = [pytest.mark.minutes, pytest.mark.parametrize("readers", [1, 4])]
KEY = "a key of both sides"
LONG = b"\xdd\x00\xff\xff\xf0"  # an array of 16,777,200 values
ZEROS = 16_000_000
DRIP = 3  # seconds of single bytes
MANY = 1_000_000
HELD = {
    "match": "held",
    "chunk_limit": 8_000_000,
    "total_limit": 2_000_000_000,
    "flush_interval": 2_000,
    "window": 8,
    "ack_wait": 120_000,
}


@pytest.fixture
def prompt(tmp_path):
    """A server that acknowledges at once, as a process of its own, and the output that has it."""
    port = free_ports(1)[0]
    words = [sys.executable, TOP / "tools" / "next_hop.py", port, "quiet"]
    with Child(words, tmp_path / "prompt", port).start() as child:
        yield child, {"match": "probe", "servers": [port]}


def attack(port):
    """Sends a long array, and then single bytes: whether the relay closed the connection meanwhile."""
    with connect(port) as stream:
        try:
            stream.link.sendall(LONG + bytes(ZEROS))
            end = time.monotonic() + DRIP
            while time.monotonic() < end:
                stream.link.sendall(b"\0")
                time.sleep(0.001)
        except OSError:
            return True
    return False


def test_long_array(relay, prompt):
    """An array of 16 MB, and single bytes behind it."""
    server, output = prompt
    one = relay([output], message_limit=67_108_864)
    with Probe("source", one.port, [one, server]) as probe:
        time.sleep(0.5)
        probe.since()
        assert not attack(one.port), "the source was closed, though its array may be as long"
        probe.waited("others wait")


def test_long_array_before_a_ping(relay, prompt):
    """The same where a key is set: it is closed, since no more than 4,096 bytes may wait before a PING."""
    server, output = prompt
    one = relay([output], message_limit=67_108_864, shared_key=KEY)
    with Probe("source", one.port, [one, server], KEY) as probe:
        time.sleep(0.5)
        probe.since()
        start = time.monotonic()
        assert attack(one.port), "the source was not closed"
        took = time.monotonic() - start
        probe.waited("others wait")
    one.await_line("source closed: .* NoLogin")
    within("closed within, s", took, 2, 30)


def hold_all(one, hop, owed, before):
    """Has a server that holds back its answers take all entries of a source."""
    owed.send()
    one.await_page(lambda output: output.held == owed.count, 120)
    until(lambda: hop.count() == before + owed.count, hop.count)
    time.sleep(0.5)


def test_many_settled(relay, next_hop, prompt):
    """A million requests that are settled at once, and a source that closes while it is owed another million.

    A chunk of 500,000 requests is compared under the output's lock as it is settled, and dropped behind its last receipt.
    """
    server, output = prompt
    hop = next_hop(answer=hold)
    one = relay([HELD | {"servers": [hop.port]}, output])
    with Probe("source", one.port, [one, server]) as asks, Probe("page", one.monitor, [one]) as looks:
        first = Owed(one.port, MANY)
        hold_all(one, hop, first, 0)
        asks.since(), looks.since()
        hop.release()
        first.join(60)
        assert first.is_told, "the source is not told of each request once"
        asks.waited("others wait, as all are settled")
        looks.waited("the page, as all are settled")
        first.close()
        hop.answer = hold
        second = Owed(one.port, MANY)
        hold_all(one, hop, second, MANY)
        asks.since(), looks.since()
        second.close()
        time.sleep(2)
        asks.waited("others wait, as the source closes")
        looks.waited("the page, as the source closes")
        hop.release()
        one.await_settled(2 * MANY)
        time.sleep(1)
        asks.waited("others wait, as its requests are settled")
        looks.waited("the page, as its requests are settled")


def cost(relay, next_hop, count):
    """The processor seconds of a request of so many entries, each in a chunk of its own."""
    small = {"chunk_limit": 3, "window": 8, "ack_wait": 120_000}
    one = relay([{"servers": [next_hop(take=lambda frame: None).port], **small}])
    with Source(one.port, timeout=240) as source:
        source.ask("first")
        before = one.processor()
        entries = (b"\x92" + TIME + RECORD) * count
        head = b"\x93" + text(b"many") + b"\xdd" + struct.pack(">I", count)
        source.stream.link.sendall(head + entries + b"\x81\xa5chunk\xa4many")
        assert source.told() == "many"
        return one.processor() - before


def test_many_chunks(relay, next_hop):
    """80,000 entries, each in a chunk of its own, are to cost at most 2.6 times what 40,000 cost; the square would be 4 times."""
    half, whole = cost(relay, next_hop, 40_000), cost(relay, next_hop, 80_000)
    within(f"twice as many cost, times ({half:.2f} s and {whole:.2f} s)", whole / half, 2.6, 3.6)
