"""Who does not log in, where several threads read the sources."""

import contextlib
import time

import pytest

from forward import connect

pytestmark = pytest.mark.quick
KEY = "a key of both sides"
READERS = 4


def test_strangers_of_each_reader(relay, next_hop):
    """Each reader closes its own sources that have not logged in 30 s after they came, and no other one."""
    one = relay([{"servers": [next_hop().port]}], shared_key=KEY, readers=READERS)
    named = [one.source(key=KEY) for _ in range(READERS)]
    began = time.monotonic()
    with contextlib.ExitStack() as stack:
        strangers = [stack.enter_context(connect(one.port)) for _ in range(2 * READERS)]
        assert {stranger.value()[0] for stranger in strangers} == {"HELO"}
        ends = time.monotonic() + 90
        closed = [stranger.is_closed(max(0.1, ends - time.monotonic())) for stranger in strangers]
        assert closed.count(False) == 0, f"so many of {len(closed)} have not logged in and stay: {closed.count(False)}"
    assert time.monotonic() - began > 25
    one.until(lambda: one.lines("source closed: ") == len(strangers), "too few are told of")
    for source in named:
        source.ask()
