"""Servers that are away, die, lie, close, are slow or refuse: what a source is told, and where its entries go."""

import pytest

from next_hop import acknowledge, close, hold, keep_silent, later, lie, refuse_above
from relay import free_ports


def standby(port):
    """A server that is a standby."""
    return {"port": port, "standby": True}


@pytest.mark.quick
@pytest.mark.parametrize("mode", ["message", "forward", "packed"])
def test_acknowledged_behind_the_next_hop(relay, next_hop, mode):
    """A source is told once the next hop acknowledged, and not before."""
    hop = next_hop(answer=hold)
    source = relay([{"servers": [hop.port]}]).source()
    source.send("app", [(5, {"n": 1})], mode, chunk="mine")
    assert hop.await_entries(1) == [("app", 5, {"n": 1})]
    source.hears_nothing(0.3)
    hop.release()
    assert source.told() == "mine"


@pytest.mark.quick
def test_lone_chunk_goes_to_the_standby(relay, next_hop):
    """A primary that nobody listens at: one chunk, and nothing behind it, goes to the standby."""
    hop = next_hop()
    away = free_ports(1)[0]
    one = relay([{"servers": [away, standby(hop.port)]}])
    one.source().ask("app", [(7, {"lone": True})])
    assert hop.entries() == [("app", 7, {"lone": True})]
    one.await_line(f"server lost: output 0 127.0.0.1:{away} Connect")


@pytest.mark.quick
@pytest.mark.parametrize(
    ("answer", "why", "keys"),
    [
        (close, "Closed", {}),
        (lie, "WrongAck", {}),
        (keep_silent, "Late", {"ack_wait": 300}),
        (later(2), "Late", {"ack_wait": 300}),
        (refuse_above(1_000), "Closed", {}),
    ],
    ids=["closes", "lies", "silent", "slow", "refuses large ones"],
)
def test_bad_primary(relay, next_hop, answer, why, keys):
    """A lone chunk that its primary does not acknowledge goes on to the standby."""
    bad, good = next_hop(answer=answer), next_hop()
    one = relay([{"servers": [bad.port, standby(good.port)], **keys}])
    entries = [(7, {"text": "x" * 2_000})]
    one.source().ask("app", entries)
    assert good.entries() == [("app", *entry) for entry in entries]
    one.await_line(f"server lost: output 0 127.0.0.1:{bad.port} {why}")


@pytest.mark.quick
def test_comes_back(relay, next_hop):
    """A lone server that is ended and started again gets what was not acknowledged, and the relay says so."""
    hop = next_hop()
    one = relay([{"servers": [hop.port]}])
    source = one.source()
    source.ask("app", [(1, {"n": 1})])
    hop.end()
    source.send("app", [(2, {"n": 2})], chunk="second")
    one.await_line(f"server lost: output 0 127.0.0.1:{hop.port} ")
    hop.start()
    assert source.told() == "second"
    assert hop.entries() == [("app", 1, {"n": 1}), ("app", 2, {"n": 2})]
    one.await_line(f"server back: output 0 127.0.0.1:{hop.port}")
    one.await_settled(2)


@pytest.mark.quick
def test_standby_is_left_again(relay, next_hop):
    """Once the primary is back, further chunks go there."""
    hop, spare = next_hop(answer=close), next_hop()
    one = relay([{"servers": [hop.port, standby(spare.port)]}])
    source = one.source()
    source.ask()
    assert spare.count() == 1
    hop.answer = acknowledge
    one.until(lambda: source.ask() or spare.count() + 1 < hop.count(), "the primary gets nothing")
    one.await_line(f"server changed: output 0 worker 0 127.0.0.1:{hop.port}")


@pytest.mark.quick
def test_output_with_a_key(relay, next_hop):
    """A server that logs the relay in, and one with another key, which it leaves."""
    other, good = next_hop(key="another"), next_hop(key="a key")
    one = relay([{"servers": [other.port, standby(good.port)], "shared_key": "a key"}])
    one.source().ask()
    assert good.count() == 1 and other.count() == 0
    one.await_line(f"server lost: output 0 127.0.0.1:{other.port} Denied")
    other.wrong.clear()


@pytest.mark.quick
def test_full(relay, next_hop):
    """An output that is full closes a source, and takes its request once the server is back."""
    hop = next_hop()
    hop.end()
    one = relay([{"servers": [hop.port], "total_limit": 3_000}])
    source = one.source()
    for number in range(4):
        source.send("app", [(number, {"text": "x" * 900})], chunk=str(number))
    assert source.is_closed()
    one.await_line("source closed: 127.0.0.1:\\d+ Full")
    assert one.page()[0].accepted == 3
    hop.start()
    one.await_settled(3)
    one.source().ask("app", [(3, {"text": "x" * 900})])


@pytest.mark.quick
def test_routes(relay, next_hop):
    """Each tag goes to the first output that it fits, and one that fits none has its source closed."""
    first, second = next_hop(), next_hop()
    outputs = [{"match": "a.*", "servers": [first.port]}, {"match": "{b,c}.**", "servers": [second.port]}]
    one = relay(outputs)
    source = one.source()
    for tag in ("a.one", "b.two", "c", "a.three"):
        source.ask(tag)
    assert [tag for tag, *_ in first.entries()] == ["a.one", "a.three"]
    assert [tag for tag, *_ in second.entries()] == ["b.two", "c"]
    source.send("d", chunk="x")
    assert source.is_closed()
    one.await_line("source closed: 127.0.0.1:\\d+ NoRoute")
