"""Sources that wait at a full output cost nothing, and those that give up and are gone cost those who stay nothing."""

import time

import pytest

from next_hop import hold

GONE = 4_000
CROWD = 100
PLACES = 200
ASKS = 200
MANY = 900


def begin_to_wait(one):
    """A source that waits with a request that it would send again."""
    source = one.source()
    source.send("a", [(1, {"n": "y" * 800})], chunk="x")
    return source


def leave(one, sources, others):
    """Sources go, and the relay has seen it: so many others stay."""
    for source in sources:
        source.close()
    one.until(lambda: one.metric("forward_relay_sources_open") == others, "they do not go")


def cost(one, healthy):
    """The relay's processor seconds for some requests at another output while a crowd waits, which is then looked at."""
    crowd = [begin_to_wait(one) for _ in range(CROWD)]
    one.until(lambda: one.metric('forward_relay_waiting_sources{output="0"}') == CROWD + 1, "they do not wait")
    before = one.processor()
    for _ in range(ASKS):
        healthy.ask("b")
    spent = one.processor() - before
    leave(one, crowd, 2)
    return spent


@pytest.mark.quick
def test_who_is_gone_is_not_looked_at(relay, next_hop):
    """Thousands come, wait behind one that stays, and go: who waits behind them costs the relay what it did before."""
    outputs = [
        {"match": "a", "servers": [next_hop(answer=hold).port], "full": "wait", "total_limit": 1_000},
        {"servers": [next_hop().port]},
    ]
    one = relay(outputs, connections=PLACES, metrics=True)
    with one.source() as first:
        first.send("a", [(1, {"n": "x" * 800})])
        one.await_page(lambda it: it.accepted == 1)
    stays, healthy = begin_to_wait(one), one.source()
    one.await_line("output 0 full")
    least = min(cost(one, healthy) for _ in range(2))
    for _ in range(GONE // CROWD):
        leave(one, [begin_to_wait(one) for _ in range(CROWD)], 2)
    assert min(cost(one, healthy) for _ in range(2)) < 2 * least + 0.1
    stays.close()


@pytest.mark.quick
def test_who_waits_costs_nothing(relay, next_hop):
    """Where nothing is settled a source that waits is not asked again and again: the relay sleeps."""
    one = relay([{"servers": [next_hop(answer=hold).port], "full": "wait", "total_limit": 1_000}], metrics=True)
    with one.source() as first:
        first.send("a", [(1, {"n": "x" * 800})])
        one.await_page(lambda it: it.accepted == 1)
    waits = begin_to_wait(one)
    one.until(lambda: one.metric('forward_relay_waiting_sources{output="0"}') == 1, "it does not wait")
    before = one.processor()
    time.sleep(2)
    assert one.processor() - before < 0.5
    waits.close()


def idle_cost(relay, next_hop, count):
    """The relay's processor seconds for a while in which so many sources wait, and nothing is settled."""
    keys = {"servers": [next_hop(answer=hold).port], "full": "wait", "total_limit": 1_000}
    one = relay([keys], connections=1_000, metrics=True)
    with one.source() as first:
        first.send("a", [(1, {"n": "x" * 800})])
        one.await_page(lambda it: it.accepted == 1)
    waits = [begin_to_wait(one) for _ in range(count)]
    one.until(lambda: one.metric('forward_relay_waiting_sources{output="0"}') == count, "they do not wait")
    before = one.processor()
    time.sleep(10)
    spent = one.processor() - before
    for source in waits:
        source.close()
    return spent


def test_who_waits_is_not_asked_in_each_turn(relay, next_hop):
    """Where nothing is settled, many that wait cost the relay what one does."""
    assert idle_cost(relay, next_hop, MANY) < 2 * idle_cost(relay, next_hop, 1) + 0.25
