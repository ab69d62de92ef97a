#!/usr/bin/python3
"""A next hop: what it does with the chunks that it gets is said by a function, as those below.

    /usr/bin/python3 tools/next_hop.py PORT [quiet|silent]

run so, it shows each entry on a line (its tag, its time, its record), and acknowledges each chunk. A quiet one
shows nothing, and a silent one does not acknowledge either. It needs Debian's python3-msgpack.
"""

import contextlib
import hashlib
import os
import socket
import sys
import threading
import time
from typing import NamedTuple

try:
    import msgpack
except ImportError:
    sys.exit("this needs Debian's python3-msgpack")

HOST = "127.0.0.1"
OTHER = "A" * 22 + "=="  # a name that no chunk of a relay with a run_id of its own has


class Frame(NamedTuple):
    """A chunk as it came."""

    tag: str
    packed: bytes
    size: int
    name: str

    def entries(self):
        """Its entries, each with the tag, its time and its record."""
        values = msgpack.Unpacker(strict_map_key=False, max_buffer_size=0)
        values.feed(self.packed)
        return [(self.tag, moment, record) for moment, record in values]


def acknowledge(_hop, stream, frame):
    """As it should be."""
    stream.send({"ack": frame.name})


def keep_silent(_hop, _stream, _frame):
    """Takes it, and says nothing."""


def lie(_hop, stream, _frame):
    """Names another chunk."""
    stream.send({"ack": OTHER})


def close(_hop, _stream, _frame):
    """Takes it, and closes the connection."""
    raise ConnectionError("as it is to be")


def hold(hop, stream, frame):
    """Acknowledges it once it is released."""
    hop.held.append((stream, frame))


def later(seconds):
    """Acknowledges it so much later."""

    def answer(hop, stream, frame):
        time.sleep(seconds)
        acknowledge(hop, stream, frame)

    return answer


def refuse_above(size):
    """Closes where there are more bytes of entries than these."""

    def answer(hop, stream, frame):
        (close if len(frame.packed) > size else acknowledge)(hop, stream, frame)

    return answer


class Values:
    """The values that go over a connection."""

    def __init__(self, link, timeout=30):
        self.link, self.values = link, msgpack.Unpacker(strict_map_key=False, max_buffer_size=0)
        if link.family != socket.AF_UNIX:
            link.setsockopt(socket.IPPROTO_TCP, socket.TCP_NODELAY, 1)
        link.settimeout(timeout)

    def send(self, value):
        """Sends a value."""
        self.link.sendall(msgpack.packb(value))

    def value(self):
        """The next value; ConnectionError where the other side closed."""
        while True:
            for value in self.values:
                return value
            piece = self.link.recv(1 << 18)
            if not piece:
                raise ConnectionError("closed by the other side")
            self.values.feed(piece)


def digest(*parts):
    """A digest of the handshake, over texts and bytes."""
    joined = b"".join(part.encode() if isinstance(part, str) else part for part in parts)
    return hashlib.sha512(joined).hexdigest()


def let_in(stream, key):
    """A server's part of the handshake: whether the relay's PING is by the key."""
    nonce = os.urandom(16)
    stream.send(["HELO", {"nonce": nonce, "auth": "", "keepalive": True}])
    said = stream.value()
    is_good = said[:1] == ["PING"] and said[3] == digest(said[2], said[1], nonce, key)
    reason = "" if is_good else "shared_key mismatch"
    stream.send(["PONG", is_good, reason, "next", digest(said[2], "next", nonce, key)])
    return is_good


class NextHop:
    """A server at a port, which may be ended and started again there."""

    def __init__(self, port=0, answer=acknowledge, key=None, take=None):
        self.answer, self.key = answer, key
        self.take = take or self.keep
        self.frames, self.held, self.links, self.wrong = [], [], set(), []
        self.changed = threading.Condition()
        self.port = port
        self.start()

    def start(self):
        """Listens, at the port that it had."""
        self.listener = socket.create_server((HOST, self.port), backlog=128)
        self.port = self.listener.getsockname()[1]
        threading.Thread(target=self.run, args=(self.listener,), daemon=True).start()

    def end(self):
        """Closes all that it has open. What it was handed stays known."""
        with contextlib.suppress(OSError):
            self.listener.shutdown(socket.SHUT_RDWR)
        self.listener.close()
        with self.changed:
            self.held.clear()
            for link in self.links:
                with contextlib.suppress(OSError):
                    link.shutdown(socket.SHUT_RDWR)

    def run(self, listener):
        """Takes connections until the listener is closed."""
        while True:
            try:
                link, _ = listener.accept()
            except OSError:
                return
            threading.Thread(target=self.serve, args=(link,), daemon=True).start()

    def serve(self, link):
        """Takes the chunks of one connection."""
        with self.changed:
            self.links.add(link)
        try:
            stream = Values(link, timeout=None)
            if self.key is not None and not let_in(stream, self.key):
                self.wrong.append("a PING that is not by the key")
                return
            while True:
                self.hear(stream, stream.value())
        except OSError:
            pass  # the relay, or this test, ended the session
        finally:
            with self.changed:
                self.links.discard(link)
            link.close()

    def hear(self, stream, value):
        """Takes a value that has to be a frame."""
        try:
            tag, joined, option = value
            frame = Frame(tag, joined, option["size"], option["chunk"])
        except (TypeError, ValueError, LookupError):
            self.wrong.append(f"no frame: {value!r:.200}")
            raise ConnectionError("no frame") from None
        self.take(frame)
        self.answer(self, stream, frame)

    def keep(self, frame):
        """Notes a frame."""
        with self.changed:
            self.frames.append(frame)
            self.changed.notify_all()

    def release(self):
        """Acknowledges all that it held, and what comes from now on."""
        self.answer = acknowledge
        held, self.held = self.held, []
        for stream, frame in held:
            acknowledge(self, stream, frame)

    def count(self):
        """How many entries it was handed."""
        return sum(frame.size for frame in self.frames)

    def entries(self):
        """All entries that it was handed, in order."""
        return [entry for frame in list(self.frames) for entry in frame.entries()]

    def await_entries(self, count, seconds=60):
        """The entries, once there are so many."""
        with self.changed:
            is_there = self.changed.wait_for(lambda: self.count() >= count, seconds)
        assert is_there, f"{self.count()} of {count} entries came in {seconds} s"
        return self.entries()


def shown(moment):
    """A time as it is shown: an EventTime by its seconds."""
    is_event = isinstance(moment, msgpack.ExtType)
    return int.from_bytes(moment.data[:4], "big") if is_event else moment


def show(frame):
    """Prints the entries of a frame."""
    for tag, moment, record in frame.entries():
        print(tag, shown(moment), record, flush=True)


def pass_over(_frame):
    """Shows nothing of a frame."""


if __name__ == "__main__":
    port, *words = sys.argv[1:] or [""]
    if not port.isdigit() or words not in ([], ["quiet"], ["silent"]):
        sys.exit(f"usage: next_hop PORT [quiet|silent], and not {' '.join(sys.argv[1:]) or 'nothing'}")
    NextHop(int(port), keep_silent if words == ["silent"] else acknowledge, take=pass_over if words else show)
    threading.Event().wait()
