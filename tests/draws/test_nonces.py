"""What a run draws for the sources that come: what a PING said over one of them is worth at no other one."""

import contextlib

import pytest

from forward import connect, ping

pytestmark = pytest.mark.quick
KEY = "a key of both sides"
SOURCES = 16


@pytest.mark.parametrize("readers", [1, 4])
def test_nonces(relay, next_hop, readers):
    """No two HELOs of a run have the same nonce, and none has another's salt for passwords; so a PING cannot be said again."""
    keys = {"shared_key": KEY, "users": {"name": "a password"}, "readers": readers}
    one = relay([{"servers": [next_hop().port]}], **keys)
    with contextlib.ExitStack() as stack:
        streams = [stack.enter_context(connect(one.port)) for _ in range(SOURCES)]
        helos = [stream.value() for stream in streams]
        drawn = [helo[1][name] for helo in helos for name in ("nonce", "auth")]
        assert len(set(drawn)) == 2 * SOURCES, drawn
        said = ping(helos[0], KEY, "name", "a password")
        streams[0].send(said)
        assert streams[0].value()[:2] == ["PONG", True]
        streams[1].send(said)
        assert streams[1].value()[:2] == ["PONG", False]
