"""What the journal says in an incident: tags, why a server is not reached or denies, requests that never fit, silence."""

import re
import socket
import time

import msgpack
import pytest

from forward import HOST, connect
from next_hop import NextHop
from relay import free_ports

SILENCE = 30  # seconds


@pytest.mark.quick
@pytest.mark.parametrize(
    ("tag", "shown"),
    [
        (b"app.web", '"app.web"'),
        (b'a "b" \\', '"a \\"b\\" \\\\"'),
        (b"app\nserver lost: output 0", b"app\nserver lost: output 0".hex()),
        (b"app\x1b[2J", b"app\x1b[2J".hex()),
        ("caf\u00e9".encode(), "caf\u00e9".encode().hex()),
        (b"x" * 100, '"' + "x" * 64 + '"'),
        (b"\x7f", "7f"),
        (b" ~", '" ~"'),
    ],
    ids=["plain", "quoted", "a line", "an escape", "UTF-8", "long", "DEL", "edges"],
)
def test_tag(relay, next_hop, tag, shown):
    """A tag that no output takes is quoted if it is printable ASCII, and else in hexadecimal."""
    hop = next_hop()
    one = relay([{"servers": [hop.port], "match": "none"}])
    stream = connect(one.port)
    stream.link.sendall(msgpack.packb([tag.decode("utf-8"), [[1, {}]]]))
    assert stream.is_closed(10)
    line = one.await_line("source closed: .* NoRoute")
    assert line.endswith(f" NoRoute tag {shown}"), line
    assert one.lines("server lost") == 0


def denies(reason):
    """A server that lets nobody in, for this reason, which it may tell in several pieces."""

    class Denying(NextHop):
        """It tells its reason."""

        def serve(self, link):
            """Denies one connection."""
            pieces = reason if isinstance(reason, list) else [reason]
            with link:
                link.sendall(msgpack.packb(["HELO", {"nonce": b"n" * 16, "auth": b"", "keepalive": True}]))
                link.recv(1 << 16)
                pong = msgpack.packb(["PONG", False, b"".join(pieces), "next", ""])
                for size in [len(pong)] if len(pieces) == 1 else [len(pong) // 2, len(pong)]:
                    link.sendall(pong[:size])
                    pong = pong[size:]
                    time.sleep(0.2)
                link.recv(1 << 16)

    return Denying()


@pytest.mark.quick
@pytest.mark.parametrize(
    ("reason", "shown"),
    [
        (b"shared_key mismatch", ' "shared_key mismatch"'),
        (b"username/password mismatch", ' "username/password mismatch"'),
        (b"no\nway", " " + b"no\nway".hex()),
        (b"r" * 500, ' "' + "r" * 64 + '"'),
        (b"", ' ""'),
        ([b"in two ", b"pieces"], ""),
    ],
    ids=["key", "password", "a line", "long", "empty", "pieces"],
)
def test_denied(relay, reason, shown):
    """A server that does not let the relay in says why, and the journal too."""
    server = denies(reason)
    one = relay([{"servers": [server.port], "shared_key": "k", "retry_wait": 1_000, "retry_max": 1_000}])
    one.source().send()
    line = one.await_line("server lost: output 0 .* Denied")
    assert line.endswith(f"{HOST}:{server.port} Denied{shown}"), line
    server.end()


@pytest.mark.quick
def test_denied_by_a_relay(relay, next_hop):
    """Another relay denies a wrong key, and says that it is the key."""
    hop = next_hop()
    other = relay([{"servers": [hop.port]}], shared_key="theirs")
    one = relay([{"servers": [other.port], "shared_key": "ours"}])
    one.source().send()
    assert one.await_line("server lost: .* Denied").endswith(' Denied "shared_key mismatch"')


@pytest.mark.quick
def test_refused(relay):
    """A port that nobody listens at refuses."""
    away = free_ports(1)[0]
    one = relay([{"servers": [away]}])
    one.source().send()
    assert one.await_line("server lost: ").endswith(f"{HOST}:{away} Connect refused")


@pytest.mark.quick
def test_unanswered(relay):
    """A listener whose queue is full answers nothing."""
    with socket.socket() as listener:
        listener.bind((HOST, 0))
        listener.listen(0)
        port = listener.getsockname()[1]
        queued = []
        for _ in range(4):
            link = socket.socket()
            link.setblocking(False)
            link.connect_ex((HOST, port))
            queued.append(link)
        one = relay([{"servers": [port]}])
        one.source().send()
        assert one.await_line("server lost: ").endswith(f"{HOST}:{port} Connect unanswered")
        for link in queued:
            link.close()


@pytest.mark.quick
def test_unreachable(relay):
    """An address that there is no route to."""
    with socket.socket() as probe:
        probe.settimeout(1)
        found = probe.connect_ex(("240.0.0.1", 9))
    if found not in (101, 113):
        pytest.skip(f"the system says {found} of a network without a route")
    one = relay([{"servers": [{"address": "240.0.0.1:9", "port": 9}]}])
    one.source().send()
    assert one.await_line("server lost: ").endswith("240.0.0.1:9 Connect unreachable")


@pytest.mark.quick
@pytest.mark.parametrize("readers", [1, 2])
@pytest.mark.parametrize("full", ["close", "wait"])
def test_never_fits(relay, next_hop, full, readers):
    """A request above `total_limit` by itself is told with both; one that would fit later is not."""
    hop = next_hop(answer=lambda *_: None)
    output = {"servers": [hop.port], "total_limit": 1_048_576, "chunk_limit": 1_048_576, "full": full}
    one = relay([output], readers=readers)
    source = one.source()
    entry = [1, {"text": "x" * 1_100_000}]
    source.send("app", [entry])
    assert source.is_closed(10)
    line = one.await_line("source closed: ")
    assert line.endswith(f" Full output 0 bytes {len(msgpack.packb(entry))} limit 1048576"), line
    if full == "close":
        for _ in range(2):
            one.source().send("app", [(1, {"text": "x" * 600_000})])
        assert re.search(r"Full output 0$", one.await_line("source closed: .* output 0$"))


@pytest.mark.quick
@pytest.mark.parametrize("readers", [1, 2])
def test_silent(relay, next_hop, readers):
    """Of sources that say nothing for 30 s those are told that never did, each once, and none is closed."""
    hop = next_hop()
    one = relay([{"servers": [hop.port]}], readers=readers)
    silent, spoke, early = connect(one.port), one.source(), connect(one.port)
    spoke.ask()
    gone = connect(one.port)
    gone.link.close()
    early.link.sendall(b"\x93")  # the head of a request
    began = time.monotonic()
    peer = "{}:{}".format(*silent.link.getsockname())
    line = one.await_line("source silent: ")
    assert line.endswith(f"source silent: {peer} may wait for a HELO"), line
    assert time.monotonic() - began > SILENCE - 2
    later = connect(one.port)
    time.sleep(3)
    assert one.lines("source silent: ") == 1
    silent.send(["app", [[1, {}]], {"chunk": "mine"}])
    assert silent.value() == {"ack": "mine"}
    later.link.close()


@pytest.mark.quick
def test_not_silent_with_a_key(relay, next_hop):
    """At a relay with a key a silent source is closed, as ever, and nothing else is told of it."""
    hop = next_hop()
    one = relay([{"servers": [hop.port]}], shared_key="k")
    stream = connect(one.port)
    assert stream.value()[0] == "HELO"
    one.await_line("source closed: .* NoLogin")
    assert one.lines("source silent: ") == 0
