"""What a stop says of what it has not delivered: entries held, requests that wait for room, and sources not read to the end."""

import socket

import pytest

from forward import connect, request
from next_hop import later
from relay import free_ports
from silent import Silent, frozen, had_by
from stopping import LEFT, left_of

pytestmark = pytest.mark.quick

DAY = 86_400_000  # a flush_interval that only a stop cuts short
ALL = "all is delivered"
both = pytest.mark.parametrize("readers", [1, 4], ids=["1-reader", "4-readers"])


def entries(place, count):
    """So many entries that no other source has."""
    return [(1, {"n": 1_000 * place + number}) for number in range(count)]


def waiting(stoppable, port, readers, sources, count, limit):
    """A relay whose output has room for few entries, and sources that sent a request each, all of them read.

    Of the sources, `sources` is a text with a letter for each: `a` asks for an acknowledgement, `s` does not, and `c` does not
    and has closed.
    """
    keys = {"full": "wait", "total_limit": limit, "chunk_limit": limit, "flush_interval": DAY}
    one = stoppable([{"servers": [port]} | keys], readers=readers, metrics=True)
    links = []
    for place, kind in enumerate(sources):
        links.append(connect(one.port).link)
        links[-1].sendall(request("forward", "app", entries(place, count), f"{place}" if kind == "a" else None))
        if kind == "c":
            links[-1].close()
    held = lambda: one.page()[0].accepted // count + one.metric('forward_relay_waiting_sources{output="0"}')
    one.until(lambda: held() == len(sources), lambda: f"{held()} requests are there")
    return one, links


@both
@pytest.mark.parametrize("sources", ["ssss", "aaaa", "aaccssac", "c" * 20])
def test_what_waits_is_left(stoppable, readers, sources):
    """Without a next hop: requests that wait for room are left too, and those that nobody sends again are counted."""
    one, _ = waiting(stoppable, free_ports(1)[0], readers, sources, 10, 150)
    left = left_of(one.stop(1))
    silent = len(sources) - sources.count("a")
    assert left[:2] == (10 * len(sources), 10 * silent)
    assert one.ended() == LEFT
    one.await_line(f"stopped: left {10 * len(sources)} entries, {10 * silent} of sources that do not ask")


@both
@pytest.mark.parametrize("pause", [0.02, 0.4, None], ids=["quick", "slow", "absent"])
def test_the_time_is_over(stoppable, next_hop, readers, pause):
    """Fifty sources sent 150 entries each, and the next hop takes 25 at a time, or none. What it did not get is left."""
    hop = next_hop(answer=later(pause or 0))
    keys = {"full": "wait", "total_limit": 250, "chunk_limit": 250, "flush_interval": DAY}
    one = stoppable([{"servers": free_ports(1) if pause is None else [hop.port]} | keys], readers=readers)
    sources = [one.source() for _ in range(50)]
    for place, source in enumerate(sources):
        for request_place in range(6):
            source.send(entries=[(1, {"n": 150 * place + 25 * request_place + n}) for n in range(25)])
    one.await_line("output 0 full")
    asked = one.stop(1)
    left, delivered = left_of(asked), len(had_by(hop))
    assert one.ended() == LEFT
    assert delivered < 7_500 and 25 <= left.entries == left.silent <= 7_500
    assert left.sources or left.entries + delivered >= 7_500, f"{left}, and {delivered} came"


@both
@pytest.mark.parametrize("milliseconds", [1, 10, 50, 200, 1_000])
def test_sources_that_are_not_read_to_the_end(stoppable, next_hop, readers, milliseconds):
    """Sources that wrote much just before, and a short time: it does not say that all is delivered unless that is so."""
    hop = next_hop()
    one = stoppable([{"servers": [hop.port], "flush_interval": DAY}], readers=readers)
    sources = [Silent(place, one.port, room=4_000_000) for place in range(8)]
    for source in sources:
        source.send(1)
    one.await_page(lambda it: it.accepted == len(sources))
    with socket.socket(socket.AF_UNIX) as control:
        with frozen(one):
            for source in sources:
                source.write(2_000)
            control.connect(one.control)
            control.sendall(f"stop {milliseconds}\n".encode())
        control.settimeout(60)
        told = b"".join(iter(lambda: control.recv(1 << 16), b"")).decode().splitlines()
    had = had_by(hop)
    missing = sum(len(source.missing(had)) for source in sources)
    assert told[-1] != ALL or missing == 0, f"lost: {missing}, and it says that all is delivered"
    assert one.ended() == (0 if told[-1] == ALL else LEFT)
