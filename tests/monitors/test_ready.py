"""What a load balancer is told at `/ready`: whether the relay drains, at once and by the status alone."""

import re
import socket
import subprocess

import pytest

from forward import HOST, connect
from next_hop import hold

pytestmark = pytest.mark.quick
READY = b"HTTP/1.1 200 OK\r\nContent-Type: text/plain\r\nContent-Length: 6\r\nConnection: close\r\n\r\nready\n"
DRAINING = (
    b"HTTP/1.1 503 Service Unavailable\r\nContent-Type: text/plain\r\nContent-Length: 9\r\n"
    b"Connection: close\r\n\r\ndraining\n"
)
NOT_FOUND = b"HTTP/1.1 404 Not Found\r\nContent-Length: 0\r\nConnection: close\r\n\r\n"
OTHERS = ["HEAD /ready", "POST /ready", "OPTIONS /ready", "GET /ready/", "GET /ready?a", "GET /readyz", "GET /read"]
TAGS = 6_000  # of 1,000 bytes each, in hexadecimal digits on the page: more than the system holds for a connection


def asked(one, line="GET /ready HTTP/1.1"):
    """What a monitor is told, to its end."""
    with connect(one.monitor, 60) as stream:
        stream.link.sendall(f"{line}\r\nHost: tests\r\n\r\n".encode())
        return b"".join(iter(lambda: stream.link.recv(1 << 16), b""))


@pytest.mark.parametrize("metrics", [False, True], ids=["without-metrics", "with-metrics"])
def test_ready(relay, next_hop, metrics):
    """A relay that was not asked to stop is ready, with the metrics page and without; other requests are as ever."""
    one = relay([{"servers": [next_hop().port]}], metrics=metrics)
    assert asked(one) == asked(one, "GET /ready HTTP/1.0") == READY
    for line in OTHERS:
        assert asked(one, f"{line} HTTP/1.1") == NOT_FOUND, line
    assert b"\r\n\r\noutput 0 accepted 0 " in asked(one, "GET / HTTP/1.1")
    assert asked(one) == READY


def test_while_it_drains(relay, next_hop, program, tmp_path):
    """From the moment at which it was asked to stop it is not ready; its pages are served until it ends."""
    one = relay([{"servers": [next_hop(answer=hold).port]}], control=str(tmp_path / "control"), metrics=True)
    one.source().send("a")
    one.await_page(lambda it: it.held == 1)
    assert asked(one) == READY
    with subprocess.Popen([program, "stop", one.path, "600"], stdout=subprocess.PIPE) as asking:
        try:
            assert asking.stdout.readline().startswith(b"held 1 ")
            assert [asked(one) for _ in range(10)] == [DRAINING] * 10
            assert asked(one, "GET /ready HTTP/1.0") == DRAINING
            assert asked(one, "HEAD /ready HTTP/1.1") == NOT_FOUND
            for target, sample in [("/", b"^output 0 accepted 1 "), ("/metrics", b"^forward_relay_draining 1$")]:
                page = asked(one, f"GET {target} HTTP/1.1")
                assert page.startswith(b"HTTP/1.1 200 OK\r\n") and re.search(sample, page, re.MULTILINE)
        finally:
            asking.kill()
    assert asked(one) == DRAINING


def test_no_page_is_waited_for(relay, next_hop):
    """Two monitors that read nothing of a large page keep a third from the page, and not from `/ready`."""
    one = relay([{"servers": [next_hop(answer=hold).port]}])
    source = one.source()
    for number in range(TAGS):
        source.send(f"{number:01000}")
    one.await_page(lambda it: it.accepted == TAGS)
    streams = []
    for _ in range(3):
        streams.append(socket.socket())
        streams[-1].setsockopt(socket.SOL_SOCKET, socket.SO_RCVBUF, 4_096)
        streams[-1].settimeout(60)
        streams[-1].connect((HOST, one.monitor))
        streams[-1].sendall(b"GET / HTTP/1.1\r\n\r\n")
        if len(streams) < 3:
            assert streams[-1].recv(12) == b"HTTP/1.1 200"
    for _ in range(10):
        assert asked(one) == READY
    streams[2].settimeout(1)
    with pytest.raises(TimeoutError):
        streams[2].recv(1)
    streams[0].close()
    streams[2].settimeout(60)
    assert streams[2].recv(12) == b"HTTP/1.1 200"
    for stream in streams[1:]:
        stream.close()
