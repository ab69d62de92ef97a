"""A page of many tags holds up nobody, and who does not read it does not keep it."""

import threading
import time

import pytest

from forward import connect
from next_hop import hold

pytestmark = pytest.mark.minutes
TAGS = 20_000  # of 1,000 bytes each: a page of 40 MB
REQUEST = b"GET / HTTP/1.1\r\nHost: tests\r\n\r\n"


def site(relay, next_hop, tags=TAGS):
    """A relay one of whose outputs holds so many long tags, and another that does its work."""
    outputs = [
        {"match": "long.**", "servers": [next_hop(answer=hold).port]},
        {"match": "**", "servers": [next_hop().port]},
    ]
    one = relay(outputs)
    source = one.source()
    for number in range(tags):
        source.send(f"long.{number:0995}")
    one.await_page(lambda it: it.accepted == tags, 300)
    return one


def read_page(port, read):
    """Reads a page to its end, or nothing of it for a while."""
    with connect(port, 120) as stream:
        stream.link.sendall(REQUEST)
        if not read:
            time.sleep(20)
        while stream.link.recv(1 << 20):
            pass


def test_round_trips_beside_pages(relay, next_hop):
    """Eight monitors ask for a large page; the other output's sources wait for no turn above 20 ms for it."""
    one = site(relay, next_hop)
    monitors = [threading.Thread(target=read_page, args=(one.monitor, True), daemon=True) for _ in range(8)]
    for monitor in monitors:
        monitor.start()
    source, waits = one.source(), []
    while any(monitor.is_alive() for monitor in monitors):
        start = time.monotonic()
        source.ask("probe")
        waits.append(1e3 * (time.monotonic() - start))
    waits.sort()
    assert waits[len(waits) * 99 // 100] < 50, f"{len(waits)} requests, the longest waited {waits[-1]:.0f} ms"


def test_who_does_not_read(relay, next_hop):
    """Sixteen monitors that read nothing are sent two pages at the most, and are closed after 30 s."""
    one = site(relay, next_hop)
    before = one.memory()
    streams = [connect(one.monitor, 120) for _ in range(16)]
    for stream in streams:
        stream.link.sendall(REQUEST)
        time.sleep(0.2)
    time.sleep(5)
    assert one.memory() < before + 4 * 2 * TAGS * 1_000
    time.sleep(35)
    for stream in streams[:2]:
        assert stream.is_closed(5)
