"""The Forward Protocol v1 as sources and servers speak it, over python3-msgpack."""

import socket

import msgpack

from next_hop import HOST, Values, digest

MODES = ("message", "forward", "packed")


def event_time(seconds, nanoseconds=0):
    """An EventTime (Forward Protocol Specification v1, "EventTime Ext Format")."""
    return msgpack.ExtType(0, seconds.to_bytes(4, "big") + nanoseconds.to_bytes(4, "big"))


def packed(entries):
    """The bytes of entries, each a time and a record."""
    return b"".join(msgpack.packb(entry) for entry in entries)


def pieces(joined):
    """The bytes of each entry of these joined ones."""
    values, at = msgpack.Unpacker(max_buffer_size=0), 0
    values.feed(joined)
    while at < len(joined):
        values.skip()
        yield joined[at : values.tell()]
        at = values.tell()


def request(mode, tag, entries, chunk=None):
    """A request's bytes; with the name of a chunk it asks for an acknowledgement."""
    option = [] if chunk is None else [{"chunk": chunk}]
    if mode == "message":
        ((moment, record),) = entries
        return msgpack.packb([tag, moment, record, *option])
    if mode == "forward":
        return msgpack.packb([tag, [list(entry) for entry in entries], *option])
    return msgpack.packb([tag, packed(entries), *option])


class Stream(Values):
    """A connection of a test."""

    def __enter__(self):
        return self

    def __exit__(self, *_):
        self.link.close()

    def hears_nothing(self, seconds):
        """Asks that for so long the other side neither sends a value nor closes."""
        before = self.link.gettimeout()
        self.link.settimeout(seconds)
        try:
            came = self.value()
        except TimeoutError:
            return
        except ConnectionError as error:
            came = error
        finally:
            self.link.settimeout(before)
        raise AssertionError(f"nothing was to come, and there came {came!r}")

    def is_closed(self, seconds):
        """Whether the other side closes within so long; what it sends before is passed over."""
        self.link.settimeout(seconds)
        try:
            while self.link.recv(1 << 16):
                pass
        except TimeoutError:
            return False
        except OSError:
            pass
        return True


def connect(port, timeout=30, wrap=None):
    """A connection to a port of this machine, or to the Unix socket of a path, over what `wrap` makes of it, as TLS."""
    if isinstance(port, int):
        link = socket.create_connection((HOST, port), timeout=timeout)
    else:
        link = socket.socket(socket.AF_UNIX)
        link.settimeout(timeout)
        link.connect(str(port))
    return Stream(wrap(link) if wrap else link, timeout)


def ping(helo, key, user="", password="", salt=b"a salt of its own"):
    """The PING that answers a HELO (Forward Protocol Specification v1, "Handshake Messages")."""
    options = helo[1]
    secret = digest(options["auth"], user, password) if user else ""
    return ["PING", "client", salt, digest(salt, "client", options["nonce"], key), user, secret]


def log_in(stream, key, user="", password=""):
    """A source's part of the handshake: it is let in, by a relay that knows the key."""
    helo = stream.value()
    assert helo[0] == "HELO", helo
    said = ping(helo, key, user, password)
    stream.send(said)
    pong = stream.value()
    assert pong[:2] == ["PONG", True], pong
    assert pong[4] == digest(said[2], pong[3], helo[1]["nonce"], key), "a PONG that is not by the key"


class Source:
    """A source's connection to a relay, which it logs in to where there is a key."""

    def __init__(self, port, key=None, user="", password="", timeout=30, wrap=None):
        self.stream = connect(port, timeout, wrap)
        self.sent = 0
        if key is not None:
            log_in(self.stream, key, user, password)

    def __enter__(self):
        return self

    def __exit__(self, *_):
        self.close()

    def send(self, tag="app", entries=((1, {"n": 1}),), mode="forward", chunk=None):
        """Sends a request, which asks for an acknowledgement where its chunk has a name."""
        self.stream.link.sendall(request(mode, tag, entries, chunk))

    def told(self):
        """The chunk that the next acknowledgement names."""
        value = self.stream.value()
        assert list(value) == ["ack"], value
        return value["ack"]

    def ask(self, tag="app", entries=((1, {"n": 1}),), mode="forward"):
        """Sends a request, and waits until it is acknowledged."""
        self.sent += 1
        chunk = f"{id(self):x}-{self.sent}"
        self.send(tag, entries, mode, chunk)
        told = self.told()
        assert told == chunk, f"told {told!r} of {chunk!r}"

    def hears_nothing(self, seconds):
        """Asks that for so long the relay neither tells anything nor closes."""
        self.stream.hears_nothing(seconds)

    def is_closed(self, seconds=30):
        """Whether the relay closes the connection within so long."""
        return self.stream.is_closed(seconds)

    def close(self):
        """Closes the connection."""
        self.stream.link.close()
