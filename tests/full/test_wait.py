"""An output that is full: its sources wait, where it is set so, and none sends anything twice."""

import pytest

from next_hop import hold
from relay import steady
from traffic import Traffic

pytestmark = pytest.mark.parametrize("readers", [1, 4])
KEYS = {"chunk_limit": 200, "total_limit": 20_000}


def send(source, chunk, size):
    """A request of one entry whose record has so many bytes beside, that asks to be acknowledged."""
    source.send("a", [(1, {"n": "x" * size})], "message", chunk)


def leave(one, source):
    """A source closes, and the relay has seen it."""
    files = steady(one.files)
    source.close()
    one.until(lambda: one.files() < files, "the source is kept")


@pytest.mark.minutes
def test_each_is_told_and_none_comes_twice(relay):
    """Twenty sources that send more than a server takes in time."""
    traffic = Traffic(1)
    one = relay([{"servers": [traffic.servers[0].port], "full": "wait"} | KEYS], connections=20)
    traffic.begin(one.port, count=20)
    one.until(lambda: traffic.is_well() and traffic.notes.told > 2_000, "few are told", 120)
    traffic.finish()
    assert traffic.notes.again == 0
    assert "Full" not in one.journal()


@pytest.mark.quick
def test_who_waited_first_goes_first(relay, next_hop, readers):
    """Two sources wait behind what fills the output: the one with a large request first, and it goes first.

    Read by several threads it is let in first, and the other one may overtake it on its way to the server.
    """
    hop = next_hop(answer=hold)
    one = relay([{"servers": [hop.port], "full": "wait", "total_limit": 1_000}])
    first, large, small = one.source(), one.source(), one.source()
    send(first, "first", 600)
    one.await_page(lambda it: it.accepted == 1)
    send(large, "large", 700)
    one.await_line("output 0 full: 1 sources wait")
    send(small, "small", 10)
    hop.await_entries(1)
    hop.release()
    assert first.told() == "first"
    assert large.told() == "large"
    assert small.told() == "small"
    first, *others = [len(record["n"]) for _, _, record in hop.entries()]
    assert first == 600
    assert others == [700, 10] if readers == 1 else sorted(others) == [10, 700]
    one.await_line("output 0 has room")


@pytest.mark.quick
def test_what_can_never_fit_is_refused(relay, next_hop):
    """A request above `total_limit` by itself closes its source in any case."""
    one = relay([{"servers": [next_hop().port], "full": "wait", "total_limit": 1_000}])
    source = one.source()
    send(source, "x", 2_000)
    one.await_line("source closed: .* Full")


@pytest.mark.quick
def test_a_source_that_gives_up_leaves_its_place(relay, next_hop):
    """Who waits first, asked to be told and is gone is not waited for, and its request is not taken."""
    hop = next_hop(answer=hold)
    one = relay([{"servers": [hop.port], "full": "wait", "total_limit": 1_000}])
    first, gone, next_one = one.source(), one.source(), one.source()
    send(first, "first", 600)
    one.await_page(lambda it: it.accepted == 1)
    send(gone, "gone", 700)
    one.await_line("output 0 full")
    send(next_one, "next", 900)
    hop.await_entries(1)
    leave(one, gone)
    hop.release()
    assert next_one.told() == "next"
    assert one.await_settled(2).accepted == 2


@pytest.mark.quick
def test_who_is_behind_it_goes_on(relay, next_hop):
    """Once the first that waits has gone, the next one is taken that has room, though nothing is settled."""
    hop = next_hop(answer=hold)
    one = relay([{"servers": [hop.port], "full": "wait", "total_limit": 1_000}])
    first, gone, small = one.source(), one.source(), one.source()
    send(first, "first", 600)
    one.await_page(lambda it: it.accepted == 1)
    send(gone, "gone", 700)
    one.await_line("output 0 full")
    send(small, "small", 200)
    leave(one, gone)
    one.await_page(lambda it: it.accepted == 2, 10)


@pytest.mark.quick
def test_nobody_is_closed_for_room_that_another_takes(relay, next_hop):
    """Twelve sources send at once, more than has room together: each is told in its turn, and none is closed."""
    hop = next_hop()
    one = relay([{"servers": [hop.port], "full": "wait", "total_limit": 1_000}])
    sources = [one.source() for _ in range(12)]
    for turn in range(20):
        for source in sources:
            send(source, f"{turn}", 450)
        for source in sources:
            assert source.told() == f"{turn}"
    assert "Full" not in one.journal()
    assert one.await_settled(240).accepted == 240
