"""A chunk that its server refuses: others go on, it is tried again by its own waits, and the journal says which it is."""

import re
import select

import pytest

from next_hop import acknowledge, close, refuse_above

LARGE = [(1, {"text": "x" * 60_000})]


def large(relay, count=1):
    """Sends so many large requests, each of a tag of its own, and waits until their server is lost."""
    sources = [relay.source() for _ in range(count)]
    for number, source in enumerate(sources):
        source.send(f"large.{number}", LARGE, chunk=f"large {number}")
    relay.await_line("server lost: output 0 ")
    return sources


def ask_until_told(relay):
    """Small requests, one behind the other, each of which is acknowledged, until a chunk is told as refused."""
    source = relay.source()
    relay.until(lambda: source.ask("small") or relay.lines("chunk refused: "), "no chunk is told as refused")


@pytest.mark.quick
@pytest.mark.parametrize("keys", [{}, {"workers": 2}, {"window": 8}], ids=["one worker", "two workers", "a window"])
@pytest.mark.parametrize("count", [1, 2])
def test_others_go_on(relay, next_hop, keys, count):
    """One server, which closes at large chunks: all small ones are acknowledged, and no large one."""
    hop = next_hop(answer=refuse_above(20_000))
    one = relay([{"servers": [hop.port], **keys}])
    sources = large(one, count)
    ask_until_told(one)
    line = one.await_line('chunk refused: output 0 tag "large')
    assert re.search(rf" bytes 60011 losses \d+ server 127.0.0.1:{hop.port} Closed$", line), line
    for source in sources:
        source.hears_nothing(0.1)
    one.await_page(lambda it: it.held == count)
    tries = [frame for frame in hop.frames if frame.tag == "large.0"]
    assert len(tries) >= 3, "it is tried again"


@pytest.mark.quick
def test_goes_on_beside_a_window(relay, next_hop):
    """What stood beside a refused chunk in a window is acknowledged, though it was lost with it."""
    hop = next_hop(answer=refuse_above(20_000))
    hop.end()
    one = relay([{"servers": [hop.port], "window": 8}])
    source = one.source()
    source.send("large.0", LARGE, chunk="large")
    other = one.source()
    for number in range(7):
        other.send(f"small.{number}", [(number, {})], chunk=str(number))
    one.await_page(lambda it: it.chunks == 8)
    hop.start()
    assert sorted(other.told() for _ in range(7)) == [str(number) for number in range(7)]


@pytest.mark.quick
@pytest.mark.parametrize("workers", [1, 2])
def test_primary_that_closes(relay, next_hop, workers):
    """A primary that accepts and closes, with a standby and traffic: what it lost goes by the standby, the first too."""
    bad, good = next_hop(answer=close), next_hop()
    one = relay([{"servers": [bad.port, {"port": good.port, "standby": True}], "workers": workers}])
    first, other = one.source(), one.source()
    first.send("first", [(0, {"first": True})], chunk="first")
    for number in range(1_000):
        other.ask(f"small.{number}", [(number, {})])
        if select.select([first.stream.link], [], [], 0)[0]:
            break
    else:
        pytest.fail("the others go on, and the first does not")
    assert first.told() == "first"


@pytest.mark.quick
def test_server_that_goes_away(relay, next_hop):
    """A server that goes away with a chunk is asked once more, cannot be had, and is tried again by its waits."""
    hop = next_hop(answer=close)
    one = relay([{"servers": [hop.port]}])
    sources = [one.source() for _ in range(2)]
    sources[0].send("first", [(0, {})], chunk="first")
    one.await_line("server lost: output 0 .* Closed")
    hop.end()
    sources[1].send("second", [(1, {})], chunk="second")
    one.until(lambda: one.lines("server lost") >= 5, "it is not tried again")
    hop.answer = acknowledge
    hop.start()
    assert [source.told() for source in sources] == ["first", "second"]
