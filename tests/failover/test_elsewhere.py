"""A chunk that one server refuses goes to the others, standbys included, before it goes there again."""

import time

import pytest

from forward import HOST
from next_hop import NextHop, acknowledge, refuse_above
from relay import free_ports
from stopping import Stoppable

LARGE = [(1, {"text": "x" * 60_000})]
SOON = 20  # seconds, of which a busy machine needs some


def refuse(hop, stream, frame):
    """Takes its time, so that others wait meanwhile, and closes at long chunks."""
    time.sleep(0.005)
    refuse_above(20_000)(hop, stream, frame)


def standby(port):
    """A server that is a standby."""
    return {"port": port, "standby": True}


def larges(hop):
    """How many chunks it was handed that are too long for some."""
    return sum(len(frame.packed) > 20_000 for frame in list(hop.frames))


class Counting(NextHop):
    """A next hop that counts its connections."""

    def __init__(self, answer):
        self.connections = 0
        super().__init__(answer=answer)

    def serve(self, link):
        """Takes the chunks of one connection, which counts."""
        self.connections += 1
        super().serve(link)


@pytest.fixture
def stoppable(program, tmp_path):
    """A relay that can be asked to stop, by one output's keys."""
    started = []

    def start(output):
        started.append(Stoppable(program, tmp_path, [output], control=str(tmp_path / "control")))
        return started[-1].start()

    yield start
    for one in started:
        one.kill()


def keep_well(source, relay, what):
    """Sends small requests, eight at a time, which are all acknowledged, until something is so."""

    def goes_on():
        for number in range(8):
            source.send(f"small.{number}", chunk=str(number))
        assert sorted(source.told() for _ in range(8)) == [str(number) for number in range(8)]
        return what()

    relay.until(goes_on, "it does not come to that", SOON)


@pytest.mark.quick
@pytest.mark.parametrize("keys", [{}, {"workers": 2}, {"window": 8}], ids=["one worker", "two workers", "a window"])
@pytest.mark.parametrize("kind", [standby, int], ids=["a standby", "another primary"])
def test_refused_by_one(relay, next_hop, keys, kind):
    """While small chunks go on with a server, the one that it refuses comes to the other, once."""
    bad, good = next_hop(answer=refuse), next_hop()
    one = relay([{"servers": [bad.port, kind(good.port)], **keys}])
    large, small = one.source(), one.source()
    small.ask("small")
    large.send("large", LARGE, chunk="large")
    keep_well(small, one, lambda: larges(good))
    assert large.told() == "large"
    before = len(bad.frames)
    for _ in range(20):
        small.ask("small")
    assert len(bad.frames) > before or kind is int, "the small ones leave their primary"
    assert larges(good) == 1 and larges(bad) <= 2
    one.await_page(lambda it: it.held == 0)


@pytest.mark.quick
@pytest.mark.parametrize("window", [1, 8])
def test_is_drained(stoppable, next_hop, window):
    """A relay that is asked to stop delivers what the primary refuses by the standby, beside what it takes."""
    bad, good = next_hop(answer=refuse), next_hop()
    one = stoppable({"servers": [bad.port, standby(good.port)], "window": window})
    source = one.source()
    for number in range(200):
        source.send(f"small.{number}")
        if number % 40 == 20:
            source.send(f"large.{number}", LARGE)
    one.await_page(lambda it: it.accepted == 205)
    asked = one.stop(SOON)
    assert asked.status == 0, asked
    assert larges(good) == 5
    assert bad.count() - larges(bad) >= 50, "the small ones leave their primary"


@pytest.mark.quick
def test_refused_by_all(relay):
    """Two servers that refuse a chunk get it in turns, and by the waits: no worker runs in circles."""
    first, second = Counting(refuse), Counting(refuse)
    one = relay([{"servers": [first.port, standby(second.port)], "retry_wait": 100, "retry_max": 400}])
    large, small = one.source(), one.source()
    large.send("large", LARGE, chunk="large")
    keep_well(small, one, lambda: larges(first) >= 4 and larges(second) >= 4)
    assert abs(larges(first) - larges(second)) <= 2, (larges(first), larges(second))
    tries = larges(first) + larges(second)
    assert first.connections + second.connections <= 6 * tries, (first.connections, second.connections, tries)
    second.answer = acknowledge
    keep_well(small, one, lambda: larges(second) and one.page()[0].held == 0)
    assert large.told() == "large"
    first.end()
    second.end()


@pytest.mark.quick
@pytest.mark.parametrize("others", [1, 0], ids=["and a good one", "and no other"])
def test_refused_and_unreached(relay, next_hop, others):
    """A standby that is away counts as tried: the next one gets the chunk, and else its primary again."""
    bad, away = next_hop(answer=refuse), free_ports(1)[0]
    good = [next_hop() for _ in range(others)]
    one = relay([{"servers": [bad.port, standby(away), *(standby(hop.port) for hop in good)]}])
    large, small = one.source(), one.source()
    small.ask("small")
    large.send("large", LARGE, chunk="large")
    if good:
        keep_well(small, one, lambda: larges(good[0]))
        assert large.told() == "large"
        return
    keep_well(small, one, lambda: larges(bad) >= 4)
    assert one.lines(f"server lost: output 0 {HOST}:{away} Connect"), "the standby is tried"


@pytest.mark.quick
def test_comes_later(relay):
    """A standby that was away when a chunk was refused gets it once it is there."""
    port = free_ports(1)[0]
    bad = NextHop(answer=refuse)
    one = relay([{"servers": [bad.port, standby(port)]}])
    large, small = one.source(), one.source()
    small.ask("small")
    large.send("large", LARGE, chunk="large")
    keep_well(small, one, lambda: larges(bad) >= 3)
    late = NextHop(port)
    keep_well(small, one, lambda: larges(late))
    assert large.told() == "large"
    bad.end()
    late.end()


@pytest.mark.quick
def test_denied_elsewhere(relay, next_hop):
    """A standby that lets the relay not in counts as tried, and the next one gets the chunk."""
    bad, good = next_hop(answer=refuse, key="k"), next_hop(key="k")
    denies = NextHop(key="another")
    servers = [bad.port, standby(denies.port), standby(good.port)]
    one = relay([{"servers": servers, "shared_key": "k"}])
    large, small = one.source(), one.source()
    small.ask("small")
    large.send("large", LARGE, chunk="large")
    keep_well(small, one, lambda: larges(good))
    assert large.told() == "large"
    one.await_line(f"server lost: output 0 {HOST}:{denies.port} Denied")
    denies.end()


@pytest.mark.quick
def test_innocent_ones_stay(relay, next_hop):
    """What stood in a window beside a chunk that its primary refuses goes to the primary again."""
    bad, good = next_hop(answer=refuse), next_hop()
    bad.end()
    good.end()
    one = relay([{"servers": [bad.port, standby(good.port)], "window": 8, "retry_wait": 200, "retry_max": 800}])
    source = one.source()
    source.send("large", LARGE, chunk="large")
    for number in range(7):
        source.send(f"small.{number}", [(number, {})], chunk=str(number))
    one.await_page(lambda it: it.chunks == 8)
    bad.start()
    one.until(lambda: larges(bad), "the primary refuses none")
    good.start()
    assert sorted(source.told() for _ in range(8)) == [*(str(number) for number in range(7)), "large"]
    assert larges(good) >= 1
