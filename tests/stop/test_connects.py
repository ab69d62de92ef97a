"""A relay that is asked to stop while sources go on connecting."""

import contextlib
import socket
import threading
import time

import pytest

from forward import HOST, request
from relay import free_ports
from shim import Board, environment
from stopping import LEFT

TAKES = 1_000  # microseconds that the relay takes to accept a connection
RATE = 2_000  # connections a second that sources try to make: they need not reach that, but half of it


class Connects:
    """Two threads that connect to a port at a steady rate, each time for one request at most."""

    def __init__(self, port, sent=b""):
        self.port, self.sent, self.count, self.ends = port, sent, 0, threading.Event()
        self.threads = [threading.Thread(target=self.run, daemon=True) for _ in range(2)]

    def __enter__(self):
        for thread in self.threads:
            thread.start()
        return self

    def __exit__(self, *_):
        self.ends.set()
        for thread in self.threads:
            thread.join()

    def run(self):
        """Connects again and again, also while nobody takes it."""
        due = time.monotonic()
        while not self.ends.is_set():
            due += len(self.threads) / RATE
            time.sleep(max(0, due - time.monotonic()))
            with contextlib.suppress(OSError), socket.create_connection((HOST, self.port), timeout=0.5) as link:
                self.count += 1
                link.sendall(self.sent)


@pytest.fixture
def busy(stoppable, shim):
    """Starts a relay that takes its time to accept a connection."""
    board = Board(stoppable.folder / "board")
    board.set("slow", TAKES)

    def start(port, **how):
        keys = {"servers": [port], "flush_interval": 86_400_000}
        return stoppable([keys], environment=environment(shim, fail_board=board.path), connections=1_024, **how)

    return start


@pytest.mark.parametrize(
    "sent",
    [
        pytest.param(request("message", "app", [(1, {"n": 1})]), id="requests", marks=pytest.mark.quick),
        pytest.param(b"", id="silent", marks=pytest.mark.minutes),
    ],
)
def test_steady_connects_hold_nothing_up(busy, next_hop, sent):
    """It takes those that waited, closes its listener, and is done long before its time is over."""
    one = busy(next_hop().port)
    with Connects(one.port, sent) as connects:
        one.until(lambda: connects.count > 500, "nobody connects")
        began = time.monotonic()
        asked = one.stop(12)
        took = time.monotonic() - began
    assert (asked.status, asked.told[-1]) == (0, "all is delivered")
    assert took < 12, f"it took {took:.1f} of 12 s"


@pytest.mark.quick
def test_the_time_is_kept(busy):
    """Without a next hop it answers once its time is over. It may need a second for those that wait when it is asked."""
    one = busy(free_ports(1)[0])
    one.source().send()
    one.await_page(lambda it: it.accepted == 1)
    with Connects(one.port) as connects:
        one.until(lambda: connects.count > 500, "nobody connects")
        began = time.monotonic()
        asked = one.stop(3)
        took = time.monotonic() - began
    assert asked.status == LEFT
    assert 2.5 < took < 3 + 4, f"it took {took:.1f} of 3 s"
