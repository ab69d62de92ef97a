"""The sources of a soak: what they send, and when they come and go."""

import os
import random
import threading
import time

import msgpack

from forward import Source as Connection
from forward import event_time, packed

TIMEOUT = 60  # seconds that an acknowledgement is waited for
NO_REQUESTS = (b"\xc1", b"\x93\xa1a\x01\x01", b"\x01", b"GET / HTTP/1.1\r\n\r\n")


def entry():
    """An entry of about 200 bytes, with an EventTime."""
    record = {"host": "web-17.example.net", "message": f"GET /{os.urandom(60).hex()} HTTP/1.1"}
    return event_time(int(time.time())), record


class Load:
    """What all sources share: where they send, until when, and what became of their connections."""

    def __init__(self, port):
        self.port, self.broken, self.wrong = port, 0, []
        self.stopped, self.lock = threading.Event(), threading.Lock()
        self.sources = sources(self)

    def broke(self):
        """A connection broke off, or could not be had."""
        with self.lock:
            self.broken += 1

    def stop(self):
        """All sources end."""
        self.stopped.set()
        for source in self.sources:
            source.join(TIMEOUT)


class Source(threading.Thread):
    """Lives for some seconds again and again: sends a window of requests, waits for their acknowledgements, rests."""

    def __init__(self, load, tag, entries, window, rest, life):
        super().__init__(daemon=True)
        self.load, self.tag, self.window, self.rest, self.life = load, tag, window, rest, life
        self.packed = packed(entry() for _ in range(entries))
        self.start()

    def run(self):
        """Until the load is stopped."""
        while not self.load.stopped.is_set():
            try:
                with Connection(self.load.port, timeout=TIMEOUT) as source:
                    self.live(source)
            except OSError:
                self.load.broke()
                self.load.stopped.wait(random.uniform(0.1, 0.5))
            except AssertionError as wrong:
                self.load.wrong.append(str(wrong))
                self.load.stopped.set()

    def live(self, source):
        """Sends again and again over a connection."""
        end = time.monotonic() + random.uniform(0, self.life)
        while True:
            self.exchange(source)
            if self.load.stopped.wait(self.rest) or time.monotonic() >= end:
                return

    def request(self, chunk):
        """A request, under a tag that another follows each second, of a hundred."""
        return msgpack.packb([f"{self.tag}.{int(time.time()) % 100}", self.packed, {"chunk": chunk}])

    def exchange(self, source):
        """Sends a window of requests, and hears as many acknowledgements, each of one of them."""
        awaited = {os.urandom(12).hex() for _ in range(self.window)}
        for chunk in awaited:
            source.stream.link.sendall(self.request(chunk))
        while awaited:
            told = source.told()
            assert told in awaited, f"no acknowledgement of what was sent: {told!r}"
            awaited.remove(told)


class BreakingOff(Source):
    """Sends the front of a request, stays a while, and is gone."""

    def exchange(self, source):
        """Less than a request."""
        request = self.request("torn")
        source.stream.link.sendall(request[: random.randrange(1, len(request))])
        self.load.stopped.wait(random.uniform(0, 1))


class Wrong(Source):
    """Sends a request, hears its acknowledgement, and then sends what is none: the relay closes the connection."""

    def exchange(self, source):
        """A request, and no request."""
        super().exchange(source)
        source.stream.link.sendall(random.choice(NO_REQUESTS))
        assert not source.stream.link.recv(1), "an answer to what is no request"
        raise ConnectionError("closed by the relay")


def sources(load):
    """All of them."""
    steady = [Source(load, "soak.one", 1, 32, 0.01, 20) for _ in range(4)]
    steady += [Source(load, "soak.hundred", 100, 4, 0.02, 20) for _ in range(4)]
    steady += [Source(load, "soak.many", 10_000, 2, 0.5, 20)]
    brief = [Source(load, "soak.brief", 10, 1, 0.02, 0) for _ in range(4)]
    odd = [BreakingOff(load, "soak.torn", 1000, 1, 0.02, 0) for _ in range(2)]
    odd += [Wrong(load, "soak.wrong", 1, 1, 0.5, 0)]
    filling = [Source(load, "fill", 100, 32, 0.05, 20) for _ in range(8)]
    return steady + brief + odd + filling
