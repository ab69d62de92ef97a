"""What is held, what is given back, and what is refused where the system has no more."""

import contextlib
import time

import pytest

from forward import connect
from next_hop import hold
from relay import until
from stress.waits import ENTRY, Owed, filled, request, requests, within

pytestmark = [pytest.mark.minutes, pytest.mark.parametrize("readers", [1, 4])]
MANY, WARM, SOURCES = 1_000_000, 10_000, 8
HELD = {
    "chunk_limit": 8_000_000,
    "total_limit": 2_000_000_000,
    "flush_interval": 2_000,
    "window": 8,
    "ack_wait": 120_000,
}
TAGS, TAG = 100_000, 1_024
SPARE = 400  # megabytes
UNFINISHED = b"\x92\xa1a\xc6\x00\xf0\x00\x00"  # the front of a request of 15 MB


def least_memory(one, seconds):
    """The least resident memory in the next so many seconds."""
    end, least = time.monotonic() + seconds, one.memory()
    while time.monotonic() < end:
        time.sleep(0.1)
        least = min(least, one.memory())
    return least


def round_of(one, hop, count, before):
    """Sources send so many requests, which are held, and then settled: the memory while they were held, and their bytes."""
    hop.answer = hold
    share = count // SOURCES
    sources = [Owed(one.port, share, number * share) for number in range(SOURCES)]
    for each in sources:
        each.send()
    output = one.await_page(lambda it: it.accepted >= before + count, 120)
    time.sleep(0.5)
    memory = one.memory()
    until(lambda: hop.count() == before + count, hop.count)
    hop.release()
    for each in sources:
        each.join(60)
    one.await_settled(before + count)
    hop.frames[:-1] = [frame._replace(packed=b"") for frame in hop.frames[:-1]]
    assert all(each.is_told for each in sources), "a source is not told of each request once"
    for each in sources:
        each.close()
    return memory, output.bytes


def test_many_held(relay, next_hop):
    """A held request of one entry is to take at most 350 bytes beside it, and three rounds of a million what the first took."""
    hop = next_hop(answer=hold)
    one = relay([HELD | {"servers": [hop.port]}])
    round_of(one, hop, WARM, 0)
    before = least_memory(one, 2)
    memory, size = round_of(one, hop, MANY, WARM)
    within("a request, bytes", (memory - before - size) / MANY, 350, 700)
    first = least_memory(one, 3)
    for number in (1, 2):
        round_of(one, hop, MANY, WARM + number * MANY)
    within("behind three rounds, times what was behind one", least_memory(one, 3) / first, 1.2, 2)


def test_long_tags(relay, next_hop):
    """100,000 tags of 1,024 bytes are to take at most 4.5 times their bytes: in requests, chunks and the tags' index."""
    outputs = [{"match": "last"}, {"match": "**", "flush_interval": 86_400_000}]
    one = relay([output | {"servers": [next_hop().port]} for output in outputs])
    one.source(timeout=120).ask("last")
    before = one.memory()
    for first in range(0, TAGS, TAGS // 4):  # a source alone may be owed a third of what all may
        source = one.source(timeout=120)
        for number in range(first, first + TAGS // 4, 1_000):
            names = [b"%08x" % each for each in range(number, number + 1_000)]
            source.stream.link.sendall(b"".join(request(name * (TAG // 8), name) for name in names))
        source.ask("last")
    time.sleep(0.5)
    within("the tags take, times their bytes", (one.memory() - before) / (TAGS * (TAG + ENTRY)), 4.5, 9)


def fill_with(one, data, count):
    """One source behind the other sends such requests, until the relay has closed three."""
    for _ in range(3):
        with contextlib.suppress(OSError), connect(one.port) as stream:
            for _ in range(count):
                stream.link.sendall(data)


def fill_large(one):
    """Requests of large entries, and smaller ones in what they leave."""
    for size in (1_000_000, 100_000, 10_000, 200):
        fill_with(one, request(b"app", b"%08x" % 0, filled(size)), 2 * SPARE * 1_000_000 // size)


def fill_small(one):
    """Many requests of one small entry each."""
    fill_with(one, requests(b"app", 0, 1_000), 4_000)


def fill_both(one):
    """Some large ones, which are taken, and then many small ones."""
    data = request(b"app", b"%08x" % 0, filled(1_000_000))
    with contextlib.suppress(OSError), connect(one.port) as stream:
        for _ in range(SPARE * 5 // 8):
            stream.link.sendall(data)
    fill_small(one)


@pytest.fixture
def filled_up(relay, next_hop):
    """Fills a relay whose address space is limited, and whose next hop is away, until memory is refused."""

    def start(fill):
        hop = next_hop(take=lambda frame: None)
        hop.end()
        waits = {"flush_interval": 500, "chunk_limit": 16_000_000, "total_limit": 10**12, "ack_wait": 120_000}
        outputs = [waits | {"servers": [hop.port]}]
        arena = {"MALLOC_ARENA_MAX": "1"}
        needed = relay(outputs, environment=arena)
        time.sleep(0.5)
        space = needed.status("VmSize") // 1024 + SPARE * 1_000
        needed.kill()
        under = ["sh", "-c", f'ulimit -v {space}; exec "$@"', "sh"]
        one = relay(outputs, under=under, environment=arena, connections=1024)
        early = Owed(one.port, WARM)
        early.send(b"early")
        one.await_page(lambda output: output.accepted >= WARM)
        fill(one)
        refusals = one.lines("memory: ") + one.journal().count(" Memory\n")
        assert refusals > 0, "memory was not refused"
        return one, hop, early

    return start


def is_taken(one):
    """Whether a new request is acknowledged."""
    try:
        source = one.source(timeout=5)
        source.ask("late")
        source.close()
        return True
    except OSError:
        return False


def delivered(one, hop, early):
    """All that was held is sent once the server is there, its source is told, and another one is taken."""
    hop.start()
    output = one.await_page(lambda it: it.held == 0, 120)
    assert output.accepted == output.settled
    early.join(60)
    assert early.is_told, f"a source is not told of {early.count:,} requests that are settled"
    until(lambda: is_taken(one), "no new request is taken", 60, 0.5)


@pytest.mark.parametrize("fill", [fill_large, fill_small, fill_both])
def test_no_memory_while_the_next_hop_is_away(filled_up, fill):
    """Memory is refused while the next hop is away, and then it comes back."""
    delivered(*filled_up(fill))


def stays(one, stack, size):
    """Whether a source with so many bytes of an unfinished request is not closed; then it stays until the stack ends."""
    try:
        stream = stack.enter_context(connect(one.port, 3))
        stream.link.sendall(UNFINISHED + bytes(size))
        return not stream.is_closed(0.005)
    except OSError:
        return False


def hold_rest(one, stack):
    """Sources that stay, with unfinished requests, until no more are taken."""
    count = 0
    for size in (1_000_000, 100_000, 10_000, 1_000):
        refusals = 0
        while refusals < 5 and count < 800:
            is_in = stays(one, stack, size)
            count += is_in
            refusals += not is_in


@pytest.mark.parametrize("_again", range(3))
def test_no_memory_while_sources_hold_the_rest(filled_up, _again):
    """The same where sources with unfinished requests stay, and hold what was left."""
    one, hop, early = filled_up(fill_small)
    with contextlib.ExitStack() as stack:
        hold_rest(one, stack)
        delivered(one, hop, early)


def test_few_are_closed_while_the_next_hop_is_away(filled_up, readers):
    """What is held gives memory back once the next hop is there: till then each reader closes a source a second at most."""
    one, hop, early = filled_up(fill_small)
    before, start = one.lines("memory: source"), time.monotonic()
    with contextlib.ExitStack() as stack:
        while time.monotonic() < start + 5:
            stays(one, stack, 1_000_000)
        closed = one.lines("memory: source") - before
        if readers == 1:  # several are handed sources that they have no memory for, too
            assert 0 < closed <= time.monotonic() - start + 2
    delivered(one, hop, early)
