"""Fluentd and Fluent Bit, which Debian does not have: the bytes that they send by their documents.

They are built here of the Forward Protocol Specification v1, and of the documents of Fluentd 1.16 and Fluent Bit 3. The
next hop has to get the same entries, and the source the answer that it waits for.
"""

import base64
import gzip
import hashlib
import os
import socket

import msgpack
import pytest

from forward import HOST, Stream, connect
from relay import until

pytestmark = pytest.mark.quick

KEY, USER, PASSWORD = "a secret of both sides", "alice", "a password of hers"
START = 1_700_000_000
UNIQUE = bytes(range(0xF0, 0x100))  # a chunk's id of 16 bytes, whose Base64 has the signs + and /
HEXADECIMAL = hashlib.sha512(b"a chunk").hexdigest()[:32]  # the id of a chunk of Fluent Bit
SIGNALS = {"metrics": 1, "traces": 2}


def moment(number, is_exact):
    """A time: an integer, or an EventTime, which is an extension of type 0 with seconds and nanoseconds."""
    seconds, nanoseconds = START + number, number * 1001
    data = seconds.to_bytes(4, "big") + nanoseconds.to_bytes(4, "big")
    return msgpack.ExtType(0, data) if is_exact else seconds


def lines(count, is_exact=True):
    """Entries as a log has them."""
    return [[moment(i, is_exact), {"log": f"line {i} \u00e4", "stream": "stdout", "n": i}] for i in range(count)]


def joined(entries):
    """Entries one behind the other."""
    return b"".join(map(msgpack.packb, entries))


def came(hop, tag):
    """What the next hop got under a tag, as lists."""
    return [[when, record] for name, when, record in hop.entries() if name == tag]


def fluentd(tag, entries, **option):
    """A request of out_forward: PackedForward mode, its entries a str with a head of 32 bits, and always an option."""
    option = {"size": len(entries), "compressed": "text", **option}
    body = option.pop("body", joined(entries))
    return b"\x93" + msgpack.packb(tag) + b"\xdb" + len(body).to_bytes(4, "big") + body + msgpack.packb(option)


def fluent_bit(tag, body, **option):
    """A request of output `forward`: PackedForward mode with a bin, or Forward mode with an array."""
    return msgpack.packb([tag, body, option])


def answer(chunk):
    """The bytes of the response to a request whose option names a chunk: a map of one pair."""
    text = chunk.encode()
    assert len(text) < 32
    return b"\x81\xa3ack" + bytes([0xA0 | len(text)]) + text


def heard(stream, size):
    """So many bytes, as they come."""
    data = b""
    while len(data) < size:
        piece = stream.link.recv(size - len(data))
        assert piece, f"closed after {data!r}"
        data += piece
    return data


def sha512(*parts):
    """A digest of the handshake."""
    return hashlib.sha512(b"".join(it.encode() if isinstance(it, str) else it for it in parts)).hexdigest()


def greeted(stream, salt, password=PASSWORD, hostname="source.example"):
    """The handshake as a client with a key, a user and a salt: the nonce, and the PONG."""
    name, greeting = stream.value()
    assert name == "HELO" and greeting["keepalive"] is True
    nonce, auth = greeting["nonce"], greeting["auth"]
    assert len(nonce) == len(auth) == 16
    secret = sha512(auth, USER, password)
    stream.send(["PING", hostname, salt, sha512(salt, hostname, nonce, KEY), USER, secret])
    return nonce, stream.value()


# ---- Fluentd


@pytest.mark.parametrize("is_exact", [True, False])
def test_fluentd(relay, next_hop, is_exact):
    """A chunk: its name is 16 bytes in Base64 with a line feed, and is answered so."""
    hop = next_hop()
    one = relay([{"servers": [hop.port]}])
    entries, name = lines(50, is_exact), base64.encodebytes(UNIQUE).decode()
    assert name.endswith("==\n") and len(name) == 25
    with connect(one.port) as stream:
        stream.link.sendall(fluentd("app.web", entries, chunk=name))
        assert heard(stream, 31) == answer(name)
    assert came(hop, "app.web") == entries


def test_fluentd_without_acks(relay, next_hop):
    """A chunk without a name is handed on, and not answered."""
    hop = next_hop()
    one = relay([{"servers": [hop.port]}])
    with connect(one.port) as stream:
        stream.link.sendall(fluentd("app.web", lines(3)))
        hop.await_entries(3)
        stream.hears_nothing(0.2)
    assert came(hop, "app.web") == lines(3)


@pytest.mark.parametrize("salt", [b"\x80" * 16, "8f" * 16], ids=["bin", "str"])
def test_fluentd_logs_in(relay, next_hop, salt):
    """With a key and a user: one handshake for as many chunks as the connection lives for."""
    hop = next_hop()
    one = relay([{"servers": [hop.port]}], shared_key=KEY, users={USER: PASSWORD}, hostname="relay.example")
    with connect(one.port) as stream:
        nonce, pong = greeted(stream, salt)
        assert pong == ["PONG", True, "", "relay.example", sha512(salt, "relay.example", nonce, KEY)]
        for number in range(3):
            name = base64.b64encode(bytes([number]) * 16).decode()
            stream.link.sendall(fluentd("app.web", lines(2), chunk=name))
            assert heard(stream, 30) == answer(name)
    assert came(hop, "app.web") == lines(2) * 3


def test_fluentd_with_another_password(relay, next_hop):
    """A wrong password: the PONG says so, and the connection ends."""
    one = relay([{"servers": [next_hop().port]}], shared_key=KEY, users={USER: PASSWORD})
    with connect(one.port) as stream:
        pong = greeted(stream, b"\x01" * 16, password="another")[1]
        assert pong[:3] == ["PONG", False, "username/password mismatch"]
        assert stream.is_closed(30)
    one.await_line(r"source closed: \S+ Denied")


@pytest.mark.parametrize("key", [None, KEY])
def test_heartbeats(relay, next_hop, key):
    """A heartbeat over TCP is a connection without a request; with a key it logs in. The journal says nothing of it."""
    users = {USER: PASSWORD} if key else {}
    one = relay([{"servers": [next_hop().port]}], shared_key=key, users=users, metrics=True)
    for _ in range(3):
        with connect(one.port) as stream:
            if key:
                assert greeted(stream, b"\x01" * 16)[1][1] is True
    until(lambda: one.metric("forward_relay_sources_open") == 0, "a heartbeat keeps its place")
    assert not one.lines("source closed")


def test_heartbeat_by_udp(relay, next_hop):
    """A heartbeat over UDP has nobody who answers it."""
    one = relay([{"servers": [next_hop().port]}])
    with socket.socket(socket.AF_INET, socket.SOCK_DGRAM) as link:
        link.settimeout(0.5)
        link.connect((HOST, one.port))
        link.send(b"\0")
        with pytest.raises((ConnectionRefusedError, TimeoutError)):
            link.recv(1)


# ---- Fluent Bit


@pytest.mark.parametrize("kind", [bytes, list], ids=["packed", "forward"])
@pytest.mark.parametrize("is_exact", [True, False])
def test_fluent_bit(relay, next_hop, is_exact, kind):
    """A chunk of logs: its name has 32 hexadecimal digits, and the option more keys, which do not matter."""
    hop = next_hop()
    one = relay([{"servers": [hop.port]}])
    entries = lines(50, is_exact)
    body = joined(entries) if kind is bytes else entries
    with connect(one.port) as stream:
        stream.link.sendall(fluent_bit("app.web", body, chunk=HEXADECIMAL, size=50, fluent_signal=0))
        assert heard(stream, 39) == b"\x81\xa3ack\xd9\x20" + HEXADECIMAL.encode()
    assert came(hop, "app.web") == entries


def test_fluent_bit_logs_in(relay, next_hop):
    """With a key and a user: the salt is a str of 16 bytes, which need not be UTF-8."""
    hop = next_hop()
    one = relay([{"servers": [hop.port]}], shared_key=KEY, users={USER: PASSWORD})
    salt = bytes(range(0x78, 0x88))
    with connect(one.port) as stream:
        nonce = stream.value()[1]
        digest = sha512(salt, "source.example", nonce["nonce"], KEY)
        rest = [digest, USER, sha512(nonce["auth"], USER, PASSWORD)]
        front = b"\x96" + msgpack.packb("PING") + msgpack.packb("source.example") + b"\xb0" + salt
        stream.link.sendall(front + b"".join(map(msgpack.packb, rest)))
        pong = stream.value()
        assert pong[1] is True and pong[4] == sha512(salt, pong[3], nonce["nonce"], KEY)
        stream.link.sendall(fluent_bit("app.web", joined(lines(2)), chunk=HEXADECIMAL, size=2, fluent_signal=0))
        assert stream.value() == {"ack": HEXADECIMAL}
    assert came(hop, "app.web") == lines(2)


@pytest.mark.parametrize("signal", SIGNALS)
def test_other_signals(relay, next_hop, signal):
    """Metrics and traces are maps, and no entries: the source is closed, and what came before goes on."""
    hop = next_hop()
    one = relay([{"servers": [hop.port]}])
    body = {"metrics": {"meta": {"ver": 2}, "metrics": []}, "traces": {"resourceSpans": []}}[signal]
    with connect(one.port) as stream:
        stream.link.sendall(fluent_bit("app.web", joined(lines(1)), size=1, fluent_signal=0))
        stream.link.sendall(fluent_bit(signal, msgpack.packb(body), chunk=HEXADECIMAL, fluent_signal=SIGNALS[signal]))
        assert stream.is_closed(30)
    one.await_line(r"source closed: \S+ BadEntry")
    assert hop.await_entries(1) == [("app.web", *lines(1)[0])]
    one.await_settled(1)


def test_metadata_in_place_of_the_time(relay, next_hop):
    """Retain_Metadata_In_Forward_Mode: the time stands in an array with metadata, and that is no entry."""
    one = relay([{"servers": [next_hop().port]}])
    entries = [[[when, {"trace": 1}], record] for when, record in lines(2)]
    with connect(one.port) as stream:
        stream.link.sendall(fluent_bit("app.web", joined(entries), chunk=HEXADECIMAL, size=2, fluent_signal=0))
        assert stream.is_closed(30)
    one.await_line(r"source closed: \S+ BadEntry")
    assert one.page()[0].accepted == 0


# ---- both


@pytest.mark.parametrize("keepalive", [True, False])
def test_as_servers(relay, keepalive):
    """They as the next hop, with a key and a user: a login for the session, or with deny_keepalive for each chunk."""
    login = {"shared_key": KEY, "hostname": "relay.example", "username": USER, "password": PASSWORD}
    with socket.create_server((HOST, 0)) as listener:
        listener.settimeout(30)
        source = relay([{"servers": [listener.getsockname()[1]], **login}]).source()
        for number in range(3):
            source.send("app.web", lines(2), chunk=str(number))
            if number == 0 or not keepalive:
                stream = Stream(listener.accept()[0])
                nonce, auth = os.urandom(16), os.urandom(16)
                stream.send(["HELO", {"nonce": nonce, "auth": auth, "keepalive": keepalive}])
                salt = (ping := stream.value())[2]
                digests = sha512(salt, "relay.example", nonce, KEY), sha512(auth, USER, PASSWORD)
                assert ping == ["PING", "relay.example", salt, digests[0], USER, digests[1]]
                stream.send(["PONG", True, "", "server.example", sha512(salt, "server.example", nonce, KEY)])
            tag, body, option = stream.value()
            assert (tag, body, option["size"]) == ("app.web", joined(lines(2)), 2)
            assert len(base64.b64decode(option["chunk"], validate=True)) == 16
            stream.send({"ack": option["chunk"]})
            assert source.told() == str(number)


@pytest.mark.parametrize("maker", ["fluentd", "fluent_bit"])
def test_compressed(relay, next_hop, maker):
    """`compress gzip`: the source is closed, and nothing of it is taken."""
    one = relay([{"servers": [next_hop().port]}])
    body, option = gzip.compress(joined(lines(2))), {"chunk": HEXADECIMAL, "compressed": "gzip"}
    with connect(one.port) as stream:
        if maker == "fluentd":
            stream.link.sendall(fluentd("app.web", lines(2), body=body, **option))
        else:
            stream.link.sendall(fluent_bit("app.web", body, size=2, fluent_signal=0, **option))
        assert stream.is_closed(30)
    one.await_line(r"source closed: \S+ Compressed")
    assert one.page()[0].accepted == 0
