"""Sources use up the memory of a relay whose next hop is away, until it takes no more; and then the next hop is back.

The relay has three outputs of two workers, each with a window of 8, and a limit on its address space. Within ten seconds all
that it accepted has to be settled; within a minute in the quick case, which is not to hang on the machine's speed.
"""

import re
import socket
import time

import pytest

from forward import HOST, request
from relay import Relay, free_ports, steady, until

pytestmark = pytest.mark.parametrize("readers", [1, 4])
TAGS = ["a", "b", "c"]  # an output each
DRAINS = 10  # seconds
MORE = 3  # seconds that sources send on once memory was refused
SENDS = 60  # seconds that they send at the most
REFUSED = re.compile(r"^(?:memory: |source closed: .* Memory$)", re.MULTILINE)
UNREACHED = re.compile(r"^server lost: .* Connect(?: [a-z]+)?$", re.MULTILINE)
WAITS = {"flush_interval": 500, "retry_wait": 200, "retry_max": 1_000, "ack_wait": 60_000}
SIZES = [100, 3_000]  # bytes of an entry


def cases():
    """Megabytes, sizes and seconds as parameters, of which one case is quick."""
    for megabytes in (60, 100, 150, 250, 400):
        for size in SIZES:
            is_quick = (megabytes, size) == (150, 3_000)
            mark = pytest.mark.quick if is_quick else pytest.mark.minutes
            yield pytest.param(megabytes, size, 60 if is_quick else DRAINS, marks=mark)


def limited(megabytes):
    """What starts a program with so much address space, and less than usual for each stack where that is little."""
    stacks = "ulimit -s 1024; " if megabytes < 100 else ""
    return ["sh", "-c", f'{stacks}ulimit -v {megabytes * 1_000_000 // 1024}; exec "$@"', "sh"]


@pytest.fixture
def site(program, tmp_path, readers):
    """Starts a relay in so many megabytes, whose next hop is to listen at a port. It ends with the test."""
    started = []

    def start(megabytes, server):
        outputs = [{"match": tag, "servers": [server], "workers": 2, "window": 8, **WAITS} for tag in TAGS]
        for output in outputs:
            output["total_limit"] = 1_000_000_000
        started.append(Relay(program, tmp_path, outputs, under=limited(megabytes), readers=readers))
        return begun(started[-1])

    yield start
    for one in started:
        one.kill()


def begun(one):
    """Starts a relay; again where the heaps of its first threads left no room for the last one's stack."""
    for _ in range(20):
        try:
            one.start()
            one.until(lambda: "listening" in one.journal() or not one.is_up(), "it does not begin")
            assert one.is_up(), "it listened, and had no thread"
            return one
        except AssertionError:
            assert "start: thread" in one.journal(), one.journal()
            one.said_path.write_text("")
    raise AssertionError("no thread at each of twenty starts")


class Sender:
    """Requests of one tag, for as long as they are taken."""

    def __init__(self, port, tag, size):
        self.port, self.link = port, None
        one = request("message", tag, [(1, {"n": bytes(size - 20)})], "chunk")
        self.data = memoryview(one * max(1, 60_000 // size))
        self.left = self.data

    def push(self):
        """How many bytes are taken now."""
        try:
            if self.link is None:
                self.link, self.left = socket.create_connection((HOST, self.port), timeout=1), self.data
                self.link.setblocking(False)
            count = self.link.send(self.left)
        except BlockingIOError:
            return 0
        except OSError:
            self.close()
            return 0
        self.left = self.left[count:] or self.data
        return count

    def close(self):
        """Closes the connection."""
        if self.link is not None:
            self.link.close()
        self.link = None


def fill(one, size):
    """A source of each tag sends, until memory was refused and for a while more."""
    senders = [Sender(one.port, tag, size) for tag in TAGS]
    end = time.monotonic() + SENDS
    while time.monotonic() < end and not REFUSED.search(one.journal()):
        send_for(senders, 0.2)
    send_for(senders, MORE)
    for sender in senders:
        sender.close()


def send_for(senders, seconds):
    """They send for so long."""
    end = time.monotonic() + seconds
    while time.monotonic() < end:
        if not sum(sender.push() for sender in senders):
            time.sleep(0.005)


def is_acknowledged(one, tag):
    """Whether a new request of a tag is."""
    try:
        with one.source(timeout=2) as source:
            source.ask(tag)
        return True
    except OSError:
        return False


@pytest.mark.parametrize("megabytes, size, seconds", cases())
def test_returns(site, next_hop, megabytes, size, seconds):
    """All is settled, the next hop had each entry, nobody says that it is not reached, and a new request is acknowledged."""
    (port,) = free_ports(1)
    one = site(megabytes, port)
    for each in (size, SIZES[0]):  # small ones in what the others leave
        fill(one, each)
    assert REFUSED.search(one.journal()), "memory was not refused"
    sizes = {}
    next_hop(port=port, take=lambda frame: sizes.update({frame.name: frame.size}))
    begin, unreached = time.monotonic(), None
    while held := sum(output.held for output in one.page()):
        took = time.monotonic() - begin
        if unreached is None and took > 2:
            unreached = len(UNREACHED.findall(one.journal()))
        assert (
            took < seconds
        ), f"{held} entries are held, {len(sizes)} chunks came; the journal ends {one.journal()[-2000:]}"
        time.sleep(0.05)
    counts = steady(one.page, 1)  # what sources had sent before they closed is read now
    assert sum(output.accepted for output in counts) == sum(output.settled for output in counts) <= sum(sizes.values())
    assert unreached in (None, len(UNREACHED.findall(one.journal())))
    for tag in TAGS:
        until(lambda: is_acknowledged(one, tag), f"no request of {tag} is taken", seconds)
