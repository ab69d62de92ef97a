"""What waits at a full output is kept when its source closes: it comes, each request once and in order."""

import os
import signal
import time

import pytest

from forward import request
from next_hop import hold
from relay import steady

pytestmark = pytest.mark.parametrize("readers", [1, 4])
COUNT = 12
SIZE = 600


def texts(count):
    """The records' texts of so many requests, each of which has its number."""
    return [f"{number:04}" + "x" * SIZE for number in range(count)]


def burst(count, chunks=False):
    """The bytes of so many Messages; with chunks each asks for an acknowledgement."""
    return b"".join(
        request("message", "a", [(number, {"n": text})], f"{number}" if chunks else None)
        for number, text in enumerate(texts(count))
    )


def send_and_close(one, source, sent, pause=0):
    """A source sends bytes and closes; without a pause the relay sees the end together with the bytes."""
    if pause:
        source.stream.link.sendall(sent)
        time.sleep(pause)
        source.close()
        return
    one.until(lambda: one.files() == one.idle_files + 1, "the source is not taken")
    os.kill(one.process.pid, signal.SIGSTOP)
    source.stream.link.sendall(sent)
    source.close()
    os.kill(one.process.pid, signal.SIGCONT)


def held_back(one, hop):
    """Waits until sources wait at the output, and then has the next hop acknowledge."""
    one.await_line("output 0 full")
    hop.await_entries(1)
    hop.release()


def sent(hop, count):
    """The texts that the next hop got, once there are so many."""
    return [record["n"] for _, _, record in hop.await_entries(count)]


@pytest.mark.quick
@pytest.mark.parametrize("pause", [0, 0.3], ids=["at once", "later"])
def test_who_closes_behind_a_burst(relay, next_hop, pause):
    """A source that asks for nothing sends a burst and closes: what waits comes once there is room."""
    hop = next_hop(answer=hold)
    one = relay([{"servers": [hop.port], "full": "wait", "total_limit": 3_000}])
    one.idle_files = steady(one.files)
    send_and_close(one, one.source(), burst(COUNT), pause)
    held_back(one, hop)
    assert sent(hop, COUNT) == texts(COUNT)
    assert one.await_settled(COUNT).accepted == COUNT


@pytest.mark.quick
def test_who_has_a_fault_behind_what_waits(relay, next_hop):
    """A fault ends a source, and what came whole before it comes all the same."""
    hop = next_hop(answer=hold)
    one = relay([{"servers": [hop.port], "full": "wait", "total_limit": 3_000}])
    source = one.source()
    source.stream.link.sendall(burst(COUNT) + b"\xc1")
    held_back(one, hop)
    assert sent(hop, COUNT) == texts(COUNT)
    one.await_line("source closed: .* Reserved")
    assert one.await_settled(COUNT).accepted == COUNT


@pytest.mark.quick
def test_who_is_owed_much(relay, next_hop):
    """With "close" a source waits that is owed much; what it sent comes once some was answered."""
    hop = next_hop(answer=hold)
    one = relay([{"servers": [hop.port], "total_limit": 1_000_000}])
    count = 1_700  # each takes some 520 bytes beside its entry, of 2,097,152, of which one source has a third
    one.idle_files = steady(one.files)
    send_and_close(one, one.source(), b"".join(request("message", "a", [(n, {})]) for n in range(count)))
    hop.await_entries(1)
    one.await_page(lambda it: 1_300 < it.accepted < count)
    hop.release()
    assert [moment for _, moment, _ in hop.await_entries(count)] == list(range(count))
    assert one.await_settled(count).accepted == count
