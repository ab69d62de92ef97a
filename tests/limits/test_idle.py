"""Where all places are taken, a new source takes the place of the one that has been silent longest.

Nothing shows from outside that a source is idle. So a new one tries until it is let in, which then says that another was.
"""

import time

import pytest

from forward import connect, log_in, request
from next_hop import hold

pytestmark = pytest.mark.quick
KEY = "a key of both sides"
LIMIT = 100  # milliseconds


def idle_lines(one):
    """How many sources were closed as idle."""
    return sum(line.endswith(" Idle") for line in one.journal().splitlines() if line.startswith("source closed: "))


def address_of(source):
    """A source's own address, as the relay names it."""
    host, port = source.stream.link.getsockname()
    return f"{host}:{port}"


def let_in(one, busy=(), **how):
    """A new source, as soon as it is acknowledged; those that are busy send requests meanwhile."""

    def tried():
        for source in busy:
            source.ask()
        try:
            source = one.source(**how)
            source.ask()
        except OSError:
            return None
        return source

    return one.until(tried, "no source is let in")


def gives_its_place(one, idle, **how):
    """A new source is let in where this one is idle: it alone was closed."""
    source = let_in(one, **how)
    one.await_line(f"source closed: {address_of(idle)} Idle")
    assert idle.is_closed()
    assert idle_lines(one) == 1
    return source


def test_the_idlest_gives_its_place(relay, next_hop):
    """Of three that are idle the one that was silent longest goes, and not the one that came first."""
    one = relay([{"servers": [next_hop().port]}], connections=3, idle_limit=LIMIT, readers=1)
    first, second, third = (one.source() for _ in range(3))
    for source in (second, third, first):
        source.ask()
        time.sleep(0.01)  # the relay counts milliseconds
    time.sleep(2 * LIMIT / 1000)  # so that all three are idle; a source that tries takes the place of the first that is
    assert idle_lines(one) == 0
    gives_its_place(one, second)
    first.ask()
    third.ask()
    assert one.lines("over the limit: ") == 0


@pytest.mark.parametrize("keys", [{"idle_limit": 600_000}, {}], ids=["a long limit", "no limit"])
def test_nobody_goes_sooner(relay, next_hop, keys):
    """As long as none has been silent for so long, and without the limit, a new one is over the limit of connections."""
    one = relay([{"servers": [next_hop().port]}], connections=2, **keys)
    first, second = one.source(), one.source()
    first.ask()
    second.ask()
    assert one.source().is_closed()
    one.await_line("over the limit: source 127.0.0.1:\\d+")
    first.ask()
    second.ask()
    assert idle_lines(one) == 0


def test_who_never_sent_anything_is_idle(relay, next_hop):
    """A source that only connected is silent since it came."""
    one = relay([{"servers": [next_hop().port]}], connections=1, idle_limit=LIMIT)
    gives_its_place(one, one.source())


def test_who_sends_a_request_in_part_stays(relay, next_hop):
    """A byte of an unfinished value that is held keeps its place: one that was silent later goes."""
    one = relay([{"servers": [next_hop().port]}], connections=2, idle_limit=LIMIT)
    whole = request("forward", "app", ((1, {"n": 1}),), "c")
    with connect(one.port) as slow:
        slow.link.sendall(whole[:-1])
        other = one.source()
        other.ask()
        gives_its_place(one, other)
        slow.link.sendall(whole[-1:])
        assert slow.value() == {"ack": "c"}


@pytest.mark.parametrize("chunk", ["c", None], ids=["asked", "not asked"])
def test_whose_request_is_under_way_stays(relay, next_hop, chunk):
    """A request that is not settled keeps its source's place, whether that asked to be told or not."""
    hop = next_hop(answer=hold)
    one = relay(
        [{"match": "held", "servers": [hop.port]}, {"servers": [next_hop().port]}], connections=2, idle_limit=LIMIT
    )
    waiting, other = one.source(), one.source()
    waiting.send("held", chunk=chunk)
    one.await_page(lambda it: it.held == 1)
    other.ask()
    gives_its_place(one, other)
    hop.release()
    assert chunk is None or waiting.told() == chunk
    waiting.ask()


def test_who_asks_for_nothing_is_idle_once_all_is_settled(relay, next_hop):
    """A source that never asks to be told gives its place like others, once its requests are settled."""
    one = relay([{"servers": [next_hop().port]}], connections=1, idle_limit=LIMIT)
    quiet = one.source()
    for _ in range(3):
        quiet.send()
    gives_its_place(one, quiet)
    assert one.page()[0].settled == 4


def test_a_login_that_is_not_done_stays(relay, next_hop):
    """With a shared key who has not logged in has its own limit; who has is idle like others."""
    one = relay([{"servers": [next_hop().port]}], connections=2, idle_limit=LIMIT, shared_key=KEY)
    with connect(one.port) as stranger:
        named = one.source(key=KEY)
        named.ask()
        gives_its_place(one, named, key=KEY)
        log_in(stranger, KEY)


def test_as_many_as_the_relay_takes(relay, next_hop):
    """As many peers that died as the relay takes keep nobody out."""
    one = relay([{"servers": [next_hop().port]}], connections=40, idle_limit=LIMIT, readers=1)
    dead = [one.source() for _ in range(40)]
    dead[-1].ask()
    for _ in dead:
        let_in(one)
    assert all(source.is_closed() for source in dead)
    one.until(lambda: one.lines("source closed: ") == 40, "too few have given their places")


def test_with_several_readers(relay, next_hop):
    """A reader closes sources of its own alone: who comes again finds a place."""
    one = relay([{"servers": [next_hop().port]}], connections=4, idle_limit=500, readers=4)
    dead = [one.source() for _ in range(4)]
    for source in dead:
        source.ask()
    new = []
    for _ in dead:
        new.append(let_in(one, busy=new))
    for source in new:
        source.ask()
    assert all(source.is_closed() for source in dead)
