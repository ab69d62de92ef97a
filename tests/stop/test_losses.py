"""What a stop takes of sources that never ask for acknowledgements.

It takes all that a source had written before the stop was asked, and all that the relay's system acknowledged later. Of what
a source writes while the relay closes its connection, it may lose the last piece, and then the source's next write fails.
"""

import contextlib
import itertools
import threading
import time

import pytest

from forward import request
from next_hop import acknowledge, hold
from relay import is_listened_at
from silent import NUMBERS, SIZE, Silent, frozen, had_by, piece
from stopping import answer_of

DAY = 86_400_000  # a flush_interval that only a stop cuts short
ALL = "all is delivered"
LINGER = 1  # seconds that the relay gives a source that sends nothing in the last phase
WAITS = {"full": "wait", "total_limit": 200_000, "chunk_limit": 50_000}
TCP = {"open": {}, "closed": {}, "nagle-open": {"nagle": True}, "nagle-closed": {"nagle": True}}
UNIX = ["open", "closed"]
both = pytest.mark.parametrize("readers", [1, 4], ids=["1-reader", "4-readers"])


def begun(stoppable, hop, unix=False, readers=1, **keys):
    """A relay that sends nothing on before it is asked to stop, and where its sources connect."""
    where = {"listen": f"unix:{stoppable.folder / 'sources'}"} if unix else {}
    one = stoppable([{"servers": [hop.port], "flush_interval": DAY} | keys], readers=readers, **where)
    return one, stoppable.folder / "sources" if unix else one.port


def await_accepted(one, count):
    """Waits until a relay's output has so many entries."""
    one.await_page(lambda it: it.accepted == count)


def lost(sources, had):
    """Of each source that misses something: how many requests of how many, by its place."""
    missing = [(len(source.missing(had)), source.taken) for source in sources]
    return {place: f"{n} of {m}" for place, (n, m) in enumerate(missing) if n}


def took_all(asked, hop, sources, at_most=0):
    """Asks that a stop says that all is delivered, and that it is, but for so many requests of each source."""
    had = had_by(hop)
    worst = max((len(source.missing(had)) for source in sources), default=0)
    assert worst <= at_most, f"lost: {lost(sources, had)}; said: {asked.told[-1:]}, status {asked.status}"
    assert (asked.status, asked.errors, asked.told[-1]) == (0, "", ALL)


# ---- what was written before the stop


def rows():
    """How the bytes come to lie unread, how many KB, readers, window, whether over a Unix socket, and of which sources."""
    some = [
        ("busy", 1_000, 1, 1, False, ["open"]),
        ("busy", 1_000, 1, 8, False, ["nagle-closed"]),
        ("busy", 3_000, 4, 8, False, list(TCP)),
        ("queued", 1_000, 1, 1, False, list(TCP)),
        ("full", 1_000, 1, 1, False, list(TCP)),
        ("full", 1_000, 4, 8, True, UNIX),
    ]
    for row in some:
        yield pytest.param(*row, marks=pytest.mark.quick, id=f"{named(row)}-{len(row[5])}-sources")
    ways = itertools.product(["busy", "queued", "full"], [10, 100, 1_000, 3_000, 8_000], [1, 4], [1, 8], [False, True])
    for row in ways:
        yield pytest.param(*row, UNIX if row[4] else list(TCP), marks=pytest.mark.minutes, id=named(row))


def named(row):
    """The name of a row."""
    how, count, readers, window, unix, *_ = row
    return f"{how}-{count}-KB-{readers}-readers-window-{window}-{'unix' if unix else 'tcp'}"


@pytest.mark.parametrize("how, count, readers, window, unix, kinds", rows())
def test_what_was_written_before(stoppable, next_hop, how, count, readers, window, unix, kinds):
    """Each source wrote so many KB that the relay could not read yet. It stays, or closed before the stop was asked."""
    hop = next_hop(answer=hold if how == "full" else acknowledge)
    one, where = begun(stoppable, hop, unix, readers, window=window, **(WAITS if how == "full" else {}))
    connected = lambda: [Silent(place, where, room=2 * SIZE * count, **TCP[kind]) for place, kind in enumerate(kinds)]
    if how == "full":
        sources = connected()
        written(sources, kinds, count)
        is_read = lambda: one.page()[0].accepted == count * len(sources)
        one.until(lambda: one.lines("output 0 full") or is_read(), "it is not full")
        time.sleep(0.5 if count == 1_000 else 3)
        asking = one.ask(60)
        one.await_line("stopping: asked")
        hop.release()
    else:
        sources = connected() if how == "busy" else []
        for source in sources:
            source.send(1)
        await_accepted(one, len(sources))
        with frozen(one):
            sources = sources or connected()
            written(sources, kinds, count - sources[0].taken)
            asking = one.ask(60)
            time.sleep(0.1)
    took_all(answer_of(asking), hop, sources)


def written(sources, kinds, count):
    """Each source writes so many requests in one go, and some close."""
    for source, kind in zip(sources, kinds):
        source.write(count)
        if "closed" in kind:
            source.close()


# ---- what is written once the relay has ended its side


def in_the_last_phase(stoppable, next_hop, unix=False, readers=1, kinds=({},)):
    """A frozen relay that has ended its side of each source's connection, and has closed none.

    It gives a source a second. If it took longer than that to freeze it, this begins again.
    """
    for _ in range(5):
        hop = next_hop()
        one, where = begun(stoppable, hop, unix, readers)
        sources = [Silent(place, where, room=4_000_000, **kind) for place, kind in enumerate(kinds)]
        for source in sources:
            source.send(1)
        await_accepted(one, len(sources))
        began = time.monotonic()
        asking = one.ask(60)
        for source in sources:
            source.await_end()
        stays = contextlib.ExitStack()
        stays.enter_context(frozen(one))
        if time.monotonic() - began < LINGER:
            return hop, sources, asking, stays
        stays.close()
        answer_of(asking)
    pytest.fail("it takes more than a second to freeze a relay")


@pytest.mark.parametrize(
    "count, readers, unix, pause",
    [
        pytest.param(1_010, 1, False, 0.1, marks=pytest.mark.quick),
        pytest.param(1_010, 4, False, 1.5, marks=pytest.mark.quick),
        pytest.param(110, 1, True, 1.5, marks=pytest.mark.quick),
        *(
            pytest.param(*row, marks=pytest.mark.minutes)
            for row in itertools.product([10, 66, 110, 1_010, 3_000], [1, 4], [False, True], [0.0, 0.5, 1.5])
        ),
    ],
)
def test_what_comes_in_the_last_phase(stoppable, next_hop, count, readers, unix, pause):
    """Sources write so many KB then, while the relay does nothing for a while. After the close a second write fails."""
    kinds = [{}] if unix else [{}, {"nagle": True}]
    hop, sources, asking, frozen_one = in_the_last_phase(stoppable, next_hop, unix, readers, kinds)
    with frozen_one:
        for source in sources:
            source.write(count)
        time.sleep(pause)
    took_all(answer_of(asking), hop, sources)
    assert all(source.go_on() <= 1 for source in sources)


@pytest.mark.quick
@both
def test_a_piece_behind_the_other_in_the_last_phase(stoppable, next_hop, readers):
    """Many sources write 110 pieces of 1 KB each as soon as the relay has ended its side. Each loses at most the last."""
    hop = next_hop()
    one, where = begun(stoppable, hop, readers=readers)
    sources = [Silent(place, where) for place in range(40)]
    for source in sources:
        source.send(1)
    await_accepted(one, len(sources))

    def late(source):
        source.await_end()
        with contextlib.suppress(OSError):
            source.send(110)

    asked = with_threads(one, late, sources)
    took_all(asked, hop, sources, at_most=1)
    assert all(source.go_on() <= 1 for source in sources)


def with_threads(one, what, sources):
    """What comes of a stop during which a thread does something with each source."""
    threads = [threading.Thread(target=what, args=(source,)) for source in sources]
    for thread in threads:
        thread.start()
    asked = one.stop(60)
    for thread in threads:
        thread.join()
    return asked


# ---- sources that send both kinds


@pytest.mark.quick
@pytest.mark.parametrize("unix", [False, True], ids=["tcp", "unix"])
@pytest.mark.parametrize("asking", [0, 1], ids=["first", "second"])
def test_both_kinds_in_the_last_phase(stoppable, next_hop, asking, unix):
    """Requests that do not ask are taken behind one that does. That is told of only if it is delivered."""
    hop, (source,), stop, frozen_one = in_the_last_phase(stoppable, next_hop, unix)
    with frozen_one:
        for place in range(4):
            number = source.front + source.taken + place
            source.link.sendall(piece(number, chunk="asks" if place == asking else None))
    assert answer_of(stop).told[-1] == ALL
    had = had_by(hop)
    numbers = [source.front + source.taken + place for place in range(4)]
    assert [n for n in numbers if n not in had and n != numbers[asking]] == []
    told = heard(source.link)
    assert not told or numbers[asking] in had, f"told {told}"


def heard(link):
    """What a source is told until the connection ends."""
    told = b""
    with contextlib.suppress(OSError):
        while came := link.recv(1 << 16):
            told += came
    return told


@pytest.mark.quick
@pytest.mark.parametrize("end", ["stays", "ends-side", "closes"])
def test_both_kinds_while_one_is_owed(stoppable, next_hop, end):
    """A source that waits for an acknowledgement goes on with requests that do not ask. These are taken."""
    hop = next_hop(answer=hold)
    one, where = begun(stoppable, hop, flush_interval=0)
    source = Silent(0, where)
    source.link.sendall(request("message", "app", [(1, {"n": 0})], "first"))
    hop.await_entries(1)
    asking = one.ask(60)
    one.until(lambda: not is_listened_at(one.port), "it listens on")
    time.sleep(0.5)  # it reads what is there, which is nothing
    source.write(20)
    if end == "ends-side":
        source.end_side()
    elif end == "closes":
        source.close()
    time.sleep(0.1)
    hop.release()
    took_all(answer_of(asking), hop, [source])
    assert end != "stays" or b"first" in heard(source.link)


# ---- between two phases


def end(source):
    """Ends a source in one of three ways, if the relay has not done that: it closes, ends its side, or stays."""
    with contextlib.suppress(OSError):
        [source.close, source.end_side, lambda: None][source.front // NUMBERS % 3]()


@pytest.mark.quick
@both
@pytest.mark.parametrize("count", [0, 5], ids=["silent", "writes"])
def test_who_ends_as_the_relay_does(stoppable, next_hop, readers, count):
    """Sources that end just as the relay enters their last phase, some after writes: nothing is lost or waited for."""
    hop = next_hop()
    one, where = begun(stoppable, hop, readers=readers)
    sources, in_time = [Silent(place, where) for place in range(30)], []
    for source in sources:
        source.send(3)
    began = time.monotonic()

    def late(source):
        source.await_end()
        with contextlib.suppress(OSError):
            source.send(count)
        if time.monotonic() - began < LINGER:
            in_time.append(source)
        end(source)

    asked = with_threads(one, late, sources)
    took_all(asked, hop, in_time)
    took_all(asked, hop, sources, at_most=1)
    assert time.monotonic() - began < 30


@pytest.mark.quick
@both
def test_who_ends_at_any_moment(stoppable, next_hop, readers):
    """Sources that wrote 300 KB before the stop, and end one after the other while the relay drains."""
    hop = next_hop()
    one, where = begun(stoppable, hop, readers=readers)
    sources = [Silent(place, where, room=2_000_000) for place in range(12)]
    with frozen(one):
        for source in sources:
            source.write(300)
        asking = one.ask(60)
    for source in sources:
        end(source)
        time.sleep(0.1)
    took_all(answer_of(asking), hop, sources)
