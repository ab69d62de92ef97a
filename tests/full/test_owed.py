"""What is owed falls again to nothing, however many requests were answered.

Until a request is answered it takes bytes beside its entries. At an output these may be 2,097,152 where the entries have few,
and a source is read no further while it takes half of what is left (docs/FORMATS.md). So if some bytes of each request are
not given back, the output takes nothing more in the end.
"""

import pytest

from forward import request
from next_hop import hold
from relay import DEADLINE

pytestmark = pytest.mark.quick
READERS = (1, 4)
LIMIT = 2_097_152
TAGS = ["first", "second"]  # each of an output of its own
LONG = "." + "x" * 1_000  # behind a tag, of which each byte counts four times
TURN = 100  # requests that are sent at once


def taken(tag, chunk):
    """What a request takes beside its entries."""
    return 512 + 4 * len(tag) + len(chunk)


def outputs_of(hop, **keys):
    """An output for each of the tags."""
    return [{"match": f"{tag}.**", "servers": [hop.port], "full": "wait", **keys} for tag in TAGS]


def ask(source, tags, count):
    """Sends so many requests without entries, of these tags in turn, and each is acknowledged: nobody has to settle it."""
    for first in range(0, count, TURN):
        chunks = [f"{number:024}" for number in range(first, min(first + TURN, count))]
        asked = [request("forward", tags[place % len(tags)], [], chunk) for place, chunk in enumerate(chunks)]
        source.stream.link.sendall(b"".join(asked))
        told = []
        try:
            while len(told) < len(asked):
                told.append(source.told())
        except TimeoutError:
            pytest.fail(f"behind {first + len(told)} requests nothing more is acknowledged")
        assert sorted(told) == chunks


@pytest.mark.parametrize("readers", READERS)
def test_at_two_outputs(relay, next_hop, readers):
    """A source of each reader asks at both outputs for more than either may owe, and then once more at each."""
    one = relay(outputs_of(next_hop(), total_limit=1), readers=readers)
    tags = [tag + LONG for tag in TAGS]
    count = LIMIT * 3 // 2 // taken(tags[0], "x" * 24)
    for source in [one.source(timeout=DEADLINE) for _ in range(readers)]:
        ask(source, tags, 2 * count)
        ask(source, tags[:1], 1)
        ask(source, tags[1:], 1)


def fill(one, number):
    """One source behind the other sends small requests to an output until little of its limit is left.

    They are given with how often each asked. The last one sent one request more than is let in.
    """
    tag, left, asked = TAGS[number] + LONG, LIMIT, []
    size = taken(tag, "x")
    while left > LIMIT // 100:
        source, owed = one.source(timeout=DEADLINE), 0
        while owed < left // 2:
            source.send(tag, [(0, {})], chunk="x")
            owed, left = owed + size, left - size
        asked.append((source, owed // size))
        one.await_page(lambda it: it.accepted == sum(count for _, count in asked), number=number)
    source.send(tag, [(0, {})], chunk="x")
    asked[-1] = (source, owed // size + 1)
    return asked


def test_beside_what_is_held(relay, next_hop):
    """Where a hundredth of the limit is left, each request that is answered gives back all that it took."""
    hop = next_hop(answer=hold)
    one = relay(outputs_of(hop, total_limit=1_000_000), readers=1)
    held = [fill(one, number) for number in range(len(TAGS))]
    source = one.source(timeout=DEADLINE)
    ask(source, [f"{tag}." for tag in TAGS], 4_000)
    assert [output.accepted for output in one.page()] == [sum(count for _, count in asked) - 1 for asked in held]
    hop.release()
    for each, count in held[0] + held[1]:
        assert [each.told() for _ in range(count)] == ["x"] * count
    for tag in TAGS:
        source.ask(f"{tag}.")


def test_what_is_owed_is_sent(relay, next_hop):
    """A source that may be owed no more does not wait until chunks are due: what would make it owed less is sent before."""
    keys = {
        "servers": [next_hop().port],
        "full": "wait",
        "total_limit": 1_000_000,
        "flush_interval": 10 * DEADLINE * 1_000,
    }
    one = relay([keys], readers=1)
    source, tag = one.source(timeout=DEADLINE), TAGS[0] + LONG
    count = LIMIT // taken(tag, "x")
    for _ in range(count):
        source.send(tag, [(0, {})], chunk="x")
    told = 0
    try:
        while told < count // 2:
            source.told()
            told += 1
    except TimeoutError:
        pytest.fail(f"of {count} requests {told} are acknowledged")
