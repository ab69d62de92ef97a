"""Stops and starts under clients that write in bursts, never ask, and look only at whether a write fails.

Each stop takes all that a client had written before it was asked, and all that the relay's system acknowledged later. It may lose
the last piece that the client wrote while the relay closed its connection, and the client's next write fails. So of each
client at most one line a stop may be missing, of which the write succeeded.
"""

import time

import pytest

from silent import Bursts, had_by

quick, minutes = pytest.mark.quick, pytest.mark.minutes
TIME = 20  # seconds that a stop has
ALL = "all is delivered"


def rows():
    """How many stops, readers and clients there are, and lines of how many bytes in a burst, so many seconds apart."""
    yield pytest.param(2, 1, 10, 50, 400, 0.2, marks=quick, id="as-go")
    yield pytest.param(2, 4, 3, 50, 2_000, 0.2, marks=quick, id="long-lines")
    yield pytest.param(2, 1, 3, 1, 400, 0.02, marks=quick, id="a-steady-pace")
    for readers in (1, 4):
        front = f"{readers}-readers"
        yield pytest.param(6, readers, 1, 50, 1_000, 0.2, marks=minutes, id=f"{front}-as-go-alone")
        yield pytest.param(6, readers, 10, 50, 400, 0.2, marks=minutes, id=f"{front}-as-go")
        yield pytest.param(6, readers, 3, 50, 2_000, 0.2, marks=minutes, id=f"{front}-long-lines")
        yield pytest.param(6, readers, 3, 500, 400, 1.0, marks=minutes, id=f"{front}-great-bursts")
        yield pytest.param(6, readers, 3, 1, 400, 0.02, marks=minutes, id=f"{front}-a-steady-pace")
        yield pytest.param(6, readers, 3, 5, 400, 0.6, marks=minutes, id=f"{front}-now-and-then")


@pytest.mark.parametrize("stops, readers, count, lines, size, pause", rows())
def test_bursts(stoppable, next_hop, stops, readers, count, lines, size, pause):
    """Clients in bursts, some milliseconds from each other, and a relay that is stopped and starts again."""
    hop = next_hop()
    one = stoppable([{"servers": [hop.port], "flush_interval": 86_400_000}], readers=readers)
    clients = [Bursts(place, one.port, lines, pause, size) for place in range(count)]
    said = []
    for _ in range(stops):
        before = [client.taken for client in clients]
        one.until(lambda: all(c.taken > n + lines for c, n in zip(clients, before)), "a client does not write")
        began = time.monotonic()
        asked = one.stop(TIME)
        said.append((asked.told[-1], asked.status, one.ended(), time.monotonic() - began))
        one.start()
    for client in clients:
        client.end()
    assert one.stop(60).status == 0
    had = had_by(hop)
    missing = {client.front: len(client.missing(had)) for client in clients}
    figures = f"missing {missing} of {[client.taken for client in clients]} in {stops} stops: {said}"
    print(figures)
    assert all(n <= stops for n in missing.values()), figures
    assert all(status == own == 0 and told == ALL for told, status, own, _ in said), figures
    assert all(took < TIME + 10 for _, _, _, took in said), figures
    assert len(hop.entries()) - len(had) <= stops * count, "much comes twice"
