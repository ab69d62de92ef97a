"""No wake is lost: sources that wait for one request are told, whatever comes between a thread's look and its sleep.

A thread of the relay sleeps at most 100 ms, and then looks. So a wake that is lost makes up for itself, and on a busy machine
nobody could tell it from other waits. Here these waits are made so long that who lost a wake is not told at all (shim.c).
"""

import pathlib
import select
import socket
import time

import pytest

from forward import HOST, Stream, request
from relay import steady, until
from shim import Board, environment

pytestmark = pytest.mark.parametrize("readers", [1, 4])
NEVER = 1 << 40  # no thread makes so many calls, or instructions, between two sleeps
NEWS = 1  # the call of a reader that woke behind which it takes the news: it reads its clock
STOPS = 1_000  # at the most, between two calls
FUTEX = "202"  # the number of the call in which a thread waits for a lock


@pytest.fixture
def drowsy(relay, shim, tmp_path):
    """Starts a relay to servers at ports whose threads sleep for two minutes, where it looked for 100 ms; and its board."""

    def start(*ports, **keys):
        board = Board(tmp_path / "board")
        outputs = [{"match": f"{number}.**", "servers": [port]} | keys for number, port in enumerate(ports)]
        one = relay(outputs, environment=environment(shim, fail_board=board.path))
        board.set("sleeps", 120_000)
        return one, board

    return start


def ask_alone(drowsy, next_hop, readers, count):
    """A source of each reader asks again and again, and nobody else: each time all threads sleep. How long it took at most."""
    one, _ = drowsy(next_hop(take=lambda frame: None).port)
    sources = [one.source(timeout=60) for _ in range(readers)]
    longest = 0.0
    for number in range(count):
        begin = time.monotonic()
        sources[number % readers].ask("0.app")
        longest = max(longest, time.monotonic() - begin)
        time.sleep(0.001)
    print(f"the longest of {count} waits: {1e3 * longest:.1f} ms")


@pytest.mark.quick
def test_a_thousand_lone_requests(drowsy, next_hop, readers):
    """Each is told, though it is the only one."""
    ask_alone(drowsy, next_hop, readers, 1_000)


@pytest.mark.minutes
def test_ten_thousand_lone_requests(drowsy, next_hop, readers):
    """The same, for longer."""
    ask_alone(drowsy, next_hop, readers, 10_000)


@pytest.mark.quick
def test_a_reader_that_loses_its_core(drowsy, next_hop, readers):
    """A reader is held up right behind its wake of a worker. The chunk is settled meanwhile, and its source is told still."""
    one, board = drowsy(next_hop().port)
    sources = [one.source(timeout=60) for _ in range(readers)]
    board.set("pause", 50_000)
    for source in sources * 3:
        source.ask("0.app")


@pytest.mark.quick
def test_chunks_that_are_full(drowsy, next_hop, readers):
    """A chunk that is closed since the next entry does not fit wakes a worker, though no flush is due for a day."""
    hop = next_hop()
    one, _ = drowsy(hop.port, flush_interval=86_400_000, chunk_limit=1_000)
    source = one.source(timeout=60)
    time.sleep(0.5)  # by then the worker sleeps its two minutes
    for number in range(3):
        source.send(tag="0.app", entries=[(1, {"n": number, "s": "x" * 600})])
    hop.await_entries(2)


class Stops:
    """A relay of which one reader is stopped where it is said, and its next hop.

    The chunks of many requests wait at the one output. The server acknowledges one, which wakes the reader; the reader is
    stopped, and meanwhile the server acknowledges another one. The worker has told of that, or waits for the reader's lock,
    once the third one comes, or once the worker waits for another thread.
    """

    def __init__(self, one, board, listener, source, count):
        self.one, self.board, self.source = one, board, source
        asked = [request("message", f"0.{number}", [(number, {})], str(number)) for number in range(count)]
        source.stream.link.sendall(b"".join(asked))
        self.hop = Stream(listener.accept()[0], 60)
        one.await_page(lambda it: it.accepted == count)
        self.told = 0
        self.resting = steady(self.waiting)

    def waiting(self):
        """Which threads of the relay wait for another one."""
        tasks = pathlib.Path(f"/proc/{self.one.process.pid}/task").iterdir()
        return {task.name for task in tasks if (task / "syscall").read_text().split()[0] == FUTEX}

    def settle(self):
        """The server acknowledges the next chunk."""
        self.hop.send({"ack": self.hop.value()[2]["chunk"]})

    def is_told(self):
        """Whether the worker has told that a chunk was settled, or cannot: it has sent the next one, or waits."""
        self.is_held = bool(self.waiting() - self.resting)
        return self.is_held or select.select([self.hop.link], [], [], 0)[0]

    def play(self, call, step):
        """Has the reader stop so many instructions behind a call. It says whether the worker had to wait for it."""
        until(lambda: self.board.counts()["sleeping"], "the reader does not sleep", step=0)
        for word, value in (("call", call), ("step", step), ("stopped", 0), ("go", 0), ("passed", 0), ("armed", 1)):
            self.board.set(word, value)
        self.settle()
        until(lambda: self.board.counts()["stopped"] or self.board.counts()["passed"], "the reader hangs", step=0)
        self.settle()
        until(self.is_told, "no further chunk comes", step=0)
        self.board.set("go", 1)
        try:
            told = [self.source.told() for _ in range(2)]
        except TimeoutError:
            pytest.fail(f"stopped {step} instructions behind call {call} it is woken no more")
        assert told == [str(self.told), str(self.told + 1)]
        self.told += 2
        return self.is_held

    def sweep(self, call, chosen):
        """The same at these places, and closer where a lock is given back between two of them."""
        held = [self.play(call, step) for step in chosen]
        for step, is_held, stays in zip(chosen, held, held[1:]):
            if is_held and not stays and chosen.step > 1:
                for near in range(step, step + 2 * chosen.step, max(1, chosen.step // 16)):
                    self.play(call, near)


@pytest.fixture
def stops(drowsy, readers):
    """Such a relay, whose only reader is stopped, or one of those beside the first."""
    with socket.create_server((HOST, 0)) as listener:
        one, board = drowsy(listener.getsockname()[1])
        board.set("who", 1 if readers == 1 else 2)
        sources = [one.source(timeout=30) for _ in range(2)]
        with (they := Stops(one, board, listener, sources[readers > 1], 2 * STOPS + 400)).hop:
            yield they


def places(first, last, steps):
    """Places from one to another that lie close: each, if to reach them all takes no more instructions than so many."""
    stops = min(STOPS, last - first, 2 * steps // (first + last))
    return range(first, last, (last - first) // stops)


@pytest.mark.quick
@pytest.mark.parametrize("what", ["takes the news", "falls asleep"])
def test_stopped_reader(stops, what):
    """A reader is told of a chunk at each of its instructions, as it takes the news of another, and as it falls asleep.

    With a sanitizer it makes a hundred times as many, of which each takes some microseconds more: then at some of them.
    """
    stops.play(NEVER, 0)
    last = stops.board.counts()["passed"] - 1
    stops.play(last, NEVER)
    steps = stops.board.counts()["steps"]
    if what == "takes the news":
        call, chosen = NEWS, places(0, steps * 3 // 2, 1_000_000)
    else:
        call, chosen = last, places(steps // 2, steps, 3_000_000)
    print(f"behind call {call} of {last + 1} it is stopped at instructions {chosen}")
    stops.sweep(call, chosen)
