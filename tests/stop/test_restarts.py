"""A relay that is stopped and started again each second, under traffic: what comes, and what does not."""

import itertools
import pathlib
import threading
import time

import pytest

import loggers
from forward import connect, request
from traffic import Traffic

pytestmark = pytest.mark.minutes


class Silent(threading.Thread):
    """A source that never asks, and sends again only what its system did not take.

    It makes a connection for each request, or keeps one until a write fails. It does not look at what comes.
    """

    def __init__(self, port, front, keeps):
        super().__init__(daemon=True)
        self.port, self.front, self.keeps = port, front, keeps
        self.sent, self.ends, self.link = 0, False, None
        self.start()

    def run(self):
        """Sends one request after the other."""
        for number in itertools.count():
            while not self.ends and not self.is_taken(request("message", "app", [(1, {"n": self.front + number})])):
                time.sleep(0.01)
            if self.ends:
                return
            self.sent = number + 1
            time.sleep(0.1)

    def is_taken(self, sent):
        """Whether the system takes a request."""
        try:
            self.link = self.link or connect(self.port).link
            self.link.sendall(sent)
        except OSError:
            self.drop()
            return False
        if not self.keeps:
            self.drop()
        return True

    def drop(self):
        """Closes its connection, if it has one."""
        if self.link:
            self.link.close()
        self.link = None


@pytest.mark.parametrize("readers", [1, 4], ids=["1-reader", "4-readers"])
def test_each_second_for_a_minute(stoppable, next_hop, readers):
    """Who asks is told of all, and nothing that another sent is missing, but at most a write of each kept connection.

    Such a write falls between the last look at a connection and its close, some microseconds later.
    """
    traffic = Traffic(1)
    hop = next_hop()
    outputs = [{"match": "{a.**,b}", "servers": [traffic.servers[0].port]}]
    outputs += [{"servers": [hop.port], "flush_interval": 86_400_000}]
    one = stoppable(outputs, connections=1_024)
    traffic.begin(one.port, count=2)
    sources = [Silent(one.port, 1_000_000 * place, keeps=place % 2 == 1) for place in range(8)]
    end, stops = time.monotonic() + 60, 0
    while time.monotonic() < end:
        time.sleep(1)
        assert one.stop(30).status == one.ended() == 0
        stops += 1
        one.start()
    for source in sources:
        source.ends = True
        source.join()
    traffic.finish()
    assert one.stop(30).status == 0
    came = {record["n"] for _, _, record in hop.entries()}
    assert len(hop.entries()) - len(came) <= stops * len(sources), "much comes twice"
    missing = {
        source.front: [n for n in range(source.front, source.front + source.sent) if n not in came]
        for source in sources
    }
    counts = {front: f"{len(missing[front])} of {source.sent}" for front, source in zip(missing, sources)}
    print(f"{stops} stops; missing, of sources that connect for each request and that do not in turn: {counts}")
    traffic.close()
    assert all(source.sent > 50 for source in sources), counts
    for source in sources:
        assert len(missing[source.front]) <= (stops // 10 if source.keeps else 1), missing


@pytest.mark.parametrize("readers", [1, 4], ids=["1-reader", "4-readers"])
def test_loggers_in_bursts(stoppable, next_hop, build_go, needed, readers):
    """Loggers of Go and Python that never ask, under six stops: at most one line of each connection is missing a stop.

    It is the line that a logger wrote while the relay closed its connection, some microseconds. Python's looks for the end
    of the relay's side before each line, and loses none.
    """
    hop = next_hop()
    one = stoppable([{"servers": [hop.port], "flush_interval": 86_400_000}], readers=readers)
    clients = loggers.begin(build_go, needed, pathlib.Path(__file__).with_name("client.go"), one.port)
    said = []
    try:
        for _ in range(6):
            time.sleep(1)
            began = time.monotonic()
            asked = one.stop(20)
            said.append((asked.told[-1], asked.status, one.ended(), round(time.monotonic() - began, 1)))
            one.start()
        time.sleep(1)
        counts = {name: client.end() for name, client in clients.items()}
    finally:
        for client in clients.values():
            client.kill()
    assert one.stop(60).status == 0
    lost = loggers.missing(clients, hop, counts)
    figures = f"missing {lost} of {counts}; stops: {said}"
    print(figures)
    assert lost["python"] == 0 and all(number <= 6 for number in lost.values()), figures
    assert all(words[:3] == ("all is delivered", 0, 0) for words in said), figures
