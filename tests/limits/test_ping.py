"""What a source may send before it has logged in."""

import pytest

from forward import connect, ping

pytestmark = pytest.mark.quick
KEY = "a key of both sides"
REST = 155  # bytes of such a PING beside its salt, at most


@pytest.mark.parametrize("size, is_let_in", [(4_000 - REST, True), (5_076 - REST, False), (8_000, False)])
def test_ping_of_some_length(relay, next_hop, size, is_let_in):
    """A PING of more than 4,096 bytes is not taken, however it comes."""
    one = relay([{"servers": [next_hop().port]}], shared_key=KEY)
    with connect(one.port) as stream:
        stream.send(ping(stream.value(), KEY, salt=bytes(size)))
        if is_let_in:
            assert stream.value()[:2] == ["PONG", True]
        else:
            assert stream.is_closed(10)
            one.await_line("source closed: .* NoLogin")
