"""A monitor that closes its side behind its request, as `nc -N` does, is sent the page."""

import socket

import pytest

from forward import connect

TRIES = 30


@pytest.mark.quick
@pytest.mark.parametrize("target", ["/", "/ready", "/metrics"])
def test_who_closes_its_side(relay, next_hop, target):
    """The reply comes whole each time, whether the end comes with the request or behind it."""
    one = relay([{"servers": [next_hop().port]}], metrics=True)
    for _ in range(TRIES):
        with connect(one.monitor) as stream:
            stream.link.sendall(f"GET {target} HTTP/1.1\r\n\r\n".encode())
            stream.link.shutdown(socket.SHUT_WR)
            reply = b"".join(iter(lambda: stream.link.recv(1 << 16), b""))
        head, body = reply.split(b"\r\n\r\n", 1)
        assert head.startswith(b"HTTP/1.1 200 OK\r\n")
        assert f"Content-Length: {len(body)}\r\n".encode() in head
