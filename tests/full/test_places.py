"""Sources that wait at a full output do not keep out those of another output."""

import time

import pytest

from forward import packed
from next_hop import hold
from relay import DEADLINE

pytestmark = pytest.mark.parametrize("readers", [1, 4])
FULL = "a"  # the tag that goes to the output that is full
PLACES = 8


def two_outputs(relay, next_hop, **keys):
    """A relay of two outputs: what the first one sends is not acknowledged, and one request fills it."""
    hop = next_hop(answer=hold)
    outputs = [
        {"match": FULL, "servers": [hop.port], "full": "wait", "total_limit": 1_000},
        {"servers": [next_hop().port]},
    ]
    one = relay(outputs, connections=PLACES, **keys)
    with one.source() as first:
        first.send(FULL, [(1, {"n": "x" * 800})])
        one.await_page(lambda it: it.accepted == 1)
    return one, hop


def begin_to_wait(one, chunk=None):
    """A source that sends a request which has to wait."""
    source = one.source()
    source.send(FULL, [(1, {"n": "y" * 800})], chunk=chunk)
    return source


def waiting(one):
    """How many sources wait at the first output, by the metrics."""
    return one.metric('forward_relay_waiting_sources{output="0"}')


def is_served(one):
    """Whether a new source of the other output is taken, and acknowledged."""
    try:
        with one.source() as healthy:
            healthy.ask("b")
        return True
    except OSError:
        return False


@pytest.mark.quick
def test_who_closed_takes_no_place(relay, next_hop):
    """Sources that give up and come again leave requests that are kept, and no places that are taken."""
    one, hop = two_outputs(relay, next_hop, metrics=True)
    for number in range(PLACES):
        begin_to_wait(one).close()
        one.until(lambda: waiting(one) == number + 1, "it does not wait")
    one.until(lambda: is_served(one), "all places are taken", 10)
    hop.release()
    assert one.await_settled(PLACES + 1).accepted == PLACES + 1
    assert "Full" not in one.journal()


@pytest.mark.quick
def test_who_waits_leaves_some_places(relay, next_hop):
    """Where all places are taken by sources that wait, one of them is closed for a source of the other output."""
    one, _ = two_outputs(relay, next_hop, metrics=True)
    crowd = [begin_to_wait(one) for _ in range(PLACES)]
    one.until(lambda: waiting(one) == PLACES, "they do not wait")
    one.until(lambda: is_served(one), "no source of the other output is taken", 10)
    one.await_line("source closed: .* Full output 0")
    assert sum(source.is_closed(0.1) for source in crowd) < PLACES / 2


@pytest.mark.quick
def test_who_asks_gives_its_place_first(relay, next_hop, readers):
    """Of sources that wait the one that asked for an acknowledgement is closed: it sends again, and loses nothing."""
    one, hop = two_outputs(relay, next_hop, metrics=True, readers=1)
    crowd = [begin_to_wait(one) for _ in range(PLACES - 1)]
    asked = begin_to_wait(one, "x")
    one.until(lambda: waiting(one) == PLACES, "they do not wait")
    assert is_served(one)
    assert asked.is_closed()
    hop.release()
    for source in crowd:
        source.close()
    assert one.await_settled(PLACES).accepted == PLACES


@pytest.mark.quick
def test_nobody_is_closed_for_the_same_output(relay, next_hop):
    """With one output alone a new source would only wait there too: it is over the limit, and nobody is closed."""
    hop = next_hop(answer=hold)
    one = relay([{"servers": [hop.port], "full": "wait", "total_limit": 1_000}], connections=4)
    crowd = []
    for _ in range(4):
        crowd.append(one.source())
        crowd[-1].send(FULL, [(1, {"n": "x" * 800})])
    one.await_line("output 0 full")
    assert one.source().is_closed()
    one.await_line("over the limit: source")
    hop.release()
    assert one.await_settled(4).accepted == 4
    assert "Full" not in one.journal()


@pytest.mark.quick
def test_who_waits_long_gives_its_place(relay, next_hop):
    """A source that asks and has waited for `idle_limit` gives its place to a new one, the one that waits longest first."""
    hop = next_hop(answer=hold)
    output = {"servers": [hop.port], "full": "wait", "total_limit": 1_000}
    one = relay([output], connections=3, idle_limit=300, readers=1)
    with one.source() as first:
        first.send(FULL, [(1, {"n": "x" * 800})])
        one.await_page(lambda it: it.accepted == 1)
    crowd = []
    for number in range(3):
        crowd.append(begin_to_wait(one, f"{number}"))
        time.sleep(0.05)
    newcomer = one.until(lambda: comes_in(one), "nobody gives its place")
    one.await_line("source closed: .* Full output 0")
    assert crowd[0].is_closed()
    hop.release()
    assert newcomer.told() == "new"
    assert sorted(source.told() for source in crowd[1:]) == ["1", "2"]


def comes_in(one):
    """A new source that waits, or None where it is over the limit: it is closed, or another one is for it."""
    source = begin_to_wait(one, "new")
    one.until(lambda: source.is_closed(0.1) or one.lines("source closed: "), "neither it nor another one is closed")
    return None if source.is_closed(0.1) else source


@pytest.mark.quick
def test_what_waits_is_counted(relay, next_hop):
    """The metrics show how many sources wait at an output, and with how many bytes of entries."""
    one, hop = two_outputs(relay, next_hop, metrics=True)
    size = len(packed([(1, {"n": "y" * 800})]))
    crowd = [begin_to_wait(one, f"{number}") for number in range(3)]
    one.until(lambda: waiting(one) == 3, "they do not wait")
    assert one.metric('forward_relay_waiting_bytes{output="0"}') == 3 * size
    crowd.pop().close()
    one.until(lambda: waiting(one) == 2, "the one that gave up waits still")
    hop.release()
    assert sorted(source.told() for source in crowd) == ["0", "1"]
    one.until(lambda: waiting(one) == 0, "some wait still")
    assert one.metric('forward_relay_waiting_bytes{output="0"}') == 0


@pytest.mark.quick
def test_what_is_open_is_sent(relay, next_hop):
    """An output that is full of open chunks sends them though `flush_interval` is not over: eight tags, one server.

    What is open at the end stays so, since nobody waits any more: it has room for seven of these requests.
    """
    interval = 10 * DEADLINE * 1_000
    output = {"servers": [next_hop().port], "full": "wait", "total_limit": 80_000, "flush_interval": interval}
    one = relay([output])
    sources = [one.source() for _ in range(8)]
    for turn in range(6):
        for number, source in enumerate(sources):
            source.send(f"tag{number}", [(turn, {"n": "x" * 10_000})], chunk=f"{turn}")
    one.await_page(lambda it: it.accepted == 48 and it.settled >= 41)
