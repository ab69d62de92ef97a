"""Those who are silent, and a relay with nothing to do."""

import contextlib
import threading
import time

import pytest

from forward import Source, connect
from next_hop import NextHop
from relay import free_ports
from stress.waits import within

pytestmark = [pytest.mark.minutes, pytest.mark.parametrize("readers", [1, 4])]
KEY = "a key of both sides"
OUTPUTS, WORKERS, FLUSH = 64, 16, 50
IDLE = 10  # seconds


class Watched(threading.Thread):
    """A connection that says what it is told to, and a byte a second then: when the relay closed it, in seconds, or None."""

    def __init__(self, port, longest, first=b"", drip=b""):
        super().__init__(daemon=True)
        self.stream, self.begin = connect(port), time.monotonic()
        self.longest, self.first, self.drip = longest, first, drip
        self.closed = None
        self.start()

    def run(self):
        """Waits for its end."""
        with self.stream, contextlib.suppress(OSError):
            self.stream.link.sendall(self.first)
            while (now := time.monotonic() - self.begin) < self.longest:
                if self.stream.is_closed(1):
                    self.closed = now
                    return
                self.stream.link.sendall(self.drip)
        self.closed = self.closed or time.monotonic() - self.begin if now < self.longest else None


def judge(watched, least, aim):
    """Each was closed, and none before so many seconds."""
    for each in watched:
        each.join()
    times = [each.closed for each in watched]
    assert None not in times and min(times) >= least, times
    within("the last is closed after, s", max(times), aim, watched[0].longest)


def test_silent(relay, next_hop):
    """A monitor without a head is closed after 10 s, a source that does not log in after 30 s; one that did may be silent."""
    one = relay([{"servers": [next_hop().port]}], shared_key=KEY, connections=4)
    good = one.source(key=KEY, timeout=60)
    drips = [(b"", b""), (b"\x96\xa4PING", b""), (b"\x96\xa4PING\xda\x0f\xff", b"x")]
    strangers = [Watched(one.port, 40, *drip) for drip in drips]
    heads = [(b"", b""), (b"GET / HT", b""), (b"GET /", b"x"), *[(b"", b"")] * 13]
    start = time.monotonic()
    monitors = [Watched(one.monitor, 20, *head) for head in heads]
    time.sleep(0.5)
    assert one.page(), "sixteen monitors that say nothing shut another out"
    within("another monitor has the page after, s", time.monotonic() - start, 12, 60)
    judge(monitors, 9, 13)
    judge(strangers, 29, 34)
    one.until(lambda: one.lines("source closed: ") == len(strangers), "the journal does not say who was closed")
    with Source(one.port, key=KEY) as other:
        other.ask()
    good.ask()


def found(source, number, port):
    """How long a request takes to its server, in milliseconds beyond the interval."""
    came = []
    hop = NextHop(port, take=lambda frame: came.append(time.monotonic()))
    time.sleep(0.3)
    sent = time.monotonic()
    source.ask(f"tag{number}")
    hop.end()
    return 1e3 * (came[0] - sent) - FLUSH


def test_idle(relay):
    """64 outputs of 16 workers with nothing to do are to take at most a tenth of a core, and then find a chunk within 10 ms."""
    ports = free_ports(OUTPUTS)
    outputs = [
        {"match": f"tag{number}", "workers": WORKERS, "flush_interval": FLUSH, "servers": [port]}
        for number, port in enumerate(ports)
    ]
    one = relay(outputs)
    time.sleep(1)
    before = one.processor()
    time.sleep(IDLE)
    within("of a core, %", 100 * (one.processor() - before) / IDLE, 10, 50)
    source = one.source()
    late = max(found(source, number, ports[number]) for number in (3, 20, 37, 54))
    within(f"beyond a flush_interval of {FLUSH} ms a chunk is found after, ms", late, 10, 1_000)
