"""Two relays in a row, with real clients, while each part is killed and started again.

    clients -> a near relay -> a far relay, with a shared key and a user -> a server

Now and then one of the two relays and the server is killed (kill -9) and started again, at moments that are drawn. Meanwhile

    go        fluent-logger-golang with RequestAck, an entry at a time, sent again until it is acknowledged
    asking    clients.py, requests of 1 to 50 entries over three connections, each sent again until it is acknowledged
    silent    python3-fluent-logger, which never asks, and so holds nothing as delivered

send. In the end every line that a client holds as delivered is at the server, byte for byte with its tag and its time, and no
line is there that no client sent. The server has kept a line once its system has it, which outlives a kill of the server, and
not a loss of power.
"""

import importlib.util
import pathlib
import random
import sys
import time

import pytest

from relay import Child, Relay, free_ports

pytestmark = pytest.mark.parametrize("readers", [1, 4])
HERE = pathlib.Path(__file__).parent
SEED = 7
LAST = 120  # seconds that the clients have to end, and the last lines to come
SECRET = {"shared_key": "a secret of both relays"}
USER = {"near": "a password of the near one"}
WAITS = {"flush_interval": 20, "retry_wait": 100, "retry_max": 1000}


@pytest.fixture
def chain(program, tmp_path, readers):
    """The three parts, which end with the test."""
    near, far, server = free_ports(3)
    to_server = {"servers": [server], "ack_wait": 2000, **WAITS}
    to_far = {"servers": [far], "workers": 2, "window": 2, "ack_wait": 5000, **SECRET, **WAITS}
    to_far |= {"hostname": "near", "username": "near", "password": USER["near"]}
    words = [sys.executable, HERE / "server.py", server, tmp_path / "server.lines"]
    keys = {"hostname": "far", "users": USER, **SECRET}
    parts = [
        Child(words, tmp_path / "server.errors", server),
        Relay(program, tmp_path, [to_server], port=far, readers=readers, **keys),
        Relay(program, tmp_path, [to_far], port=near, readers=readers),
    ]
    for part in parts:
        part.start()
    yield parts
    for part in parts:
        part.kill()


@pytest.fixture
def clients(build_go, chain, tmp_path):
    """The clients that can be had on this machine, which send to the near relay."""
    port = str(chain[-1].port)
    own = [sys.executable, HERE / "clients.py"]
    words = {"asking": [*own, "asking", port, tmp_path]}
    if importlib.util.find_spec("fluent"):
        words["silent"] = [*own, "silent", port, tmp_path]
    if program := build_go(HERE / "client.go"):
        words["go"] = [program, port, tmp_path]
    started = {name: Child(words[name], tmp_path / "clients.errors").begin() for name in words}
    yield started
    for client in started.values():
        client.kill()


def lines_in(path):
    """The whole lines of a file. What an end has cut off has no dot at its end."""
    text = path.read_bytes() if path.exists() else b""
    return [line for line in text.split(b"\n") if line.endswith(b".")]


def disturb(parts, draw, seconds):
    """Kills a part now and then, and starts it again behind a pause, for so long, and each at least once."""
    end, killed = time.monotonic() + seconds, set()
    while time.monotonic() < end or len(killed) < len(parts):
        time.sleep(draw.uniform(1, 6))
        part = draw.choice(parts)
        assert part.is_up(), f"it ended by itself: {part.words} {part.said()[-2000:]}"
        part.kill()
        killed.add(part)
        time.sleep(draw.uniform(0, 2))
        part.start()


def finish(clients, folder):
    """The clients end once what they have under way is acknowledged, and no line comes for five seconds."""
    for client in clients.values():
        client.process.terminate()
    for name, client in clients.items():
        assert client.ended(LAST) == 0, f"{name}: {client.said()[-2000:]}"
    before, path = -1, folder / "server.lines"
    while before != path.stat().st_size:
        before = path.stat().st_size
        time.sleep(5)


@pytest.mark.parametrize(
    "seconds",
    [pytest.param(30, marks=pytest.mark.quick), pytest.param(300, marks=pytest.mark.minutes)],
)
def test_nothing_is_lost(chain, clients, tmp_path, seconds):
    """What is held as delivered is at the server, and nothing else is."""
    disturb(chain, random.Random(SEED), seconds)
    finish(clients, tmp_path)
    came = set(lines_in(tmp_path / "server.lines"))
    held = {name: set(lines_in(tmp_path / f"{name}.held")) for name in clients}
    sent = set().union(*(lines_in(tmp_path / f"{name}.sent") for name in clients))
    assert sorted(set().union(*held.values()) - came) == [], "held as delivered, and not at the server"
    assert sorted(came - sent) == [], "at the server, and sent by nobody"
    assert all(held[name] for name in clients if name != "silent")
