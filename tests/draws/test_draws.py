"""What a run draws: the bytes in its chunks' names, and the salts that its workers log in with."""

import base64
import contextlib
import socket

import pytest

from forward import HOST, Stream

pytestmark = pytest.mark.quick
SEED = "5a" * 32
DEADLINE = 60  # seconds
TAGS = ["a.1", "a.2", "b.1", "b.2"]


def run_of(relay, next_hop, **keys):
    """The six bytes of a run, as they stand first in its chunks' names."""
    hop = next_hop()
    relay([{"servers": [hop.port]}], **keys).source().ask()
    return base64.b64decode(hop.frames[0].name)[:6]


def test_runs(relay, next_hop):
    """Each run draws bytes of its own; with one seed two runs draw the same."""
    first, second = (run_of(relay, next_hop) for _ in range(2))
    seeded = [run_of(relay, next_hop, seed=SEED) for _ in range(2)]
    assert first != second
    assert seeded[0] == seeded[1]
    assert seeded[0] not in (first, second)


def salt_of(stack, listener):
    """The salt of the next worker that logs in to a server, which does not answer it."""
    link, _ = listener.accept()
    stream = stack.enter_context(Stream(link, DEADLINE))
    stream.send(["HELO", {"nonce": b"a nonce of its own", "auth": "", "keepalive": True}])
    return stream.value()[2]


def salts(relay, **keys):
    """Those of two outputs of two workers, each of which has a chunk."""
    with contextlib.ExitStack() as stack:
        listeners = [stack.enter_context(socket.create_server((HOST, 0))) for _ in range(2)]
        outputs = []
        for tag, listener in zip("ab", listeners):
            listener.settimeout(DEADLINE)
            server = listener.getsockname()[1]
            outputs.append({"match": f"{tag}.*", "workers": 2, "shared_key": "a key", "servers": [server]})
        source = relay(outputs, **keys).source()
        for tag in TAGS:
            source.send(tag)
        return sorted(salt_of(stack, listener) for listener in listeners for _ in range(2))


def test_salts(relay):
    """No two workers have the same, of one output or of two; with one seed two runs have the same ones."""
    drawn, seeded = salts(relay), salts(relay, seed=SEED)
    assert len({*drawn, *seeded}) == 2 * len(TAGS)
    assert salts(relay, seed=SEED) == seeded
