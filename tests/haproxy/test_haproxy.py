"""Two relays behind Debian's haproxy, as examples/haproxy.cfg has them."""

import csv
import os
import re
import shutil
import socket

import pytest

from documents import recipe
from forward import HOST, Source
from relay import Child, free_ports, until
from stopping import Stoppable
from traffic import Traffic

pytestmark = pytest.mark.quick

PROGRAM = "/usr/sbin/haproxy"
FOR_ROOT = "    chroot /var/lib/haproxy\n    user haproxy\n    group haproxy\n"


class Balancer(Child):
    """haproxy by the recipe, before two relays."""

    def __init__(self, folder, relays):
        self.admin = folder / "admin"
        port = free_ports(1)[0]
        changes = {
            "bind :24224": f"bind {HOST}:{port}",
            "one 192.0.2.1:24224": f"one {HOST}:{relays[0].port}",
            "two 192.0.2.2:24224": f"two {HOST}:{relays[1].port}",
            "/run/haproxy/admin.sock": str(self.admin),
            "log /dev/log local0": "log stderr format raw local0",
            **({} if os.geteuid() == 0 else {FOR_ROOT: ""}),
        }
        path = folder / "haproxy.cfg"
        path.write_text(recipe("haproxy.cfg", changes))
        super().__init__([PROGRAM, "-db", "-f", path], folder / "said", port)

    def tell(self, line):
        """What it answers to a line at its socket for who administers it."""
        with socket.socket(socket.AF_UNIX) as link:
            link.settimeout(30)
            link.connect(str(self.admin))
            link.sendall(f"{line}\n".encode())
            return b"".join(iter(lambda: link.recv(1 << 16), b"")).decode()

    def row(self, name):
        """What it counts of a server."""
        rows = csv.DictReader(self.tell("show stat").lstrip("# ").splitlines())
        return next(row for row in rows if row["svname"] == name)

    def sources(self, name):
        """The ports of the sources that a server has, as OPERATING has them looked up."""
        lines = [line for line in self.tell("show sess").splitlines() if f"srv={name}" in line]
        return {int(re.search(r" src=\S+:(\d+) ", line)[1]) for line in lines}

    def await_state(self, name, state):
        """Waits until a server is so."""
        until(lambda: self.row(name)["status"].startswith(state), lambda: f"{self.row(name)} {self.said()[-2000:]}")


@pytest.fixture
def balancer(needed, tmp_path):
    """Starts haproxy before two relays."""
    needed("haproxy", shutil.which(PROGRAM))
    started = []

    def start(*relays):
        started.append(Balancer(tmp_path, relays))
        return started[-1].start()

    yield start
    for one in started:
        one.kill()
        print(one.said()[-2000:])


def test_one_is_killed(relay, balancer):
    """Sources go on at the other relay, and come back; nothing that they are told is missing."""
    traffic = Traffic(1)
    relays = [relay([{"servers": [traffic.servers[0].port]}]) for _ in range(2)]
    front = balancer(*relays)
    traffic.begin(front.port)
    try:
        until(lambda: all(one.page()[0].settled for one in relays), front.said)
        for name, one in zip(("one", "two"), relays):
            one.kill()
            told = traffic.notes.told
            until(lambda: traffic.is_well() and traffic.notes.told > told + 100, front.said)
            front.await_state(name, "DOWN")
            one.start()
            front.await_state(name, "UP")
        traffic.finish()
        assert traffic.notes.again > 0
    finally:
        traffic.close()


def test_one_is_taken_out(relay, balancer, next_hop):
    """A relay that gets no new source is ended once its sources have moved and it holds nothing: sources that never ask
    lose nothing."""
    hop = next_hop()
    relays = [relay([{"servers": [hop.port], "flush_interval": 300}]) for _ in range(2)]
    front = balancer(*relays)
    sources = [Source(front.port) for _ in range(6)]
    sent = []

    def send(source):
        sent.append(("app", 1, {"n": len(sent)}))
        source.send("app", [sent[-1][1:]])

    def accepted(one):
        return one.page()[0].accepted

    for source in sources:
        send(source)
    until(lambda: sum(map(accepted, relays)) == len(sent), front.said)
    before = accepted(relays[0])
    assert 0 < before < len(sent)
    front.tell("set server sources/one state drain")
    for number, source in enumerate(sources):
        send(source)
        source.close()  # as a source does that is started again
        sources[number] = Source(front.port)
        send(sources[number])
    until(lambda: front.row("one")["scur"] == "0", lambda: front.row("one"))
    until(lambda: sum(map(accepted, relays)) == len(sent), front.said)
    relays[0].await_page(lambda it: it.held == 0)
    assert accepted(relays[0]) > before
    relays[0].kill()
    for source in sources:
        send(source)
    came = hop.await_entries(len(sent))
    assert sorted(came, key=lambda entry: entry[2]["n"]) == sent
    relays[0].start()
    front.tell("set server sources/one state ready")
    front.await_state("one", "UP")
    before = int(front.row("one")["stot"])
    with Source(front.port) as source:
        source.ask()
    assert int(front.row("one")["stot"]) > before


def test_one_is_stopped(relay, program, balancer, next_hop, tmp_path):
    """A relay that is stopped closes its sources, which go to the other one, and stay there when it is back."""
    hop = next_hop()
    control = str(tmp_path / "control")
    with Stoppable(program, tmp_path, [{"servers": [hop.port]}], control=control) as first:
        first.start()
        front = balancer(first, relay([{"servers": [hop.port]}]))
        sources = [Source(front.port) for _ in range(4)]
        for source in sources:
            source.ask()
        ports = [source.stream.link.getsockname()[1] for source in sources]
        mine = [source for source, port in zip(sources, ports) if port in front.sources("one")]
        assert 0 < len(mine) < 4 and front.sources("one") | front.sources("two") == set(ports)
        front.tell("set server sources/one state drain")
        for source in mine:
            source.ask()  # a drain at haproxy closes nothing
        front.tell("set server sources/one state ready")
        assert first.stop(30).told[-1] == "all is delivered"
        assert all(source.is_closed() for source in mine)
        front.await_state("one", "DOWN")
        again = [Source(front.port) for _ in mine]
        first.start()
        front.await_state("one", "UP")
        for source in again:
            source.ask()
        assert front.sources("one") == set() and len(front.sources("two")) == 4
        with Source(front.port) as source:
            source.ask()
            assert front.sources("one") == {source.stream.link.getsockname()[1]}
