"""A next hop that acknowledges each chunk some milliseconds after it came, and notes how old its entries were.

    /usr/bin/python3 paced_hop.py MS FIRST

Each chunk has a delay of its own: chunks of several connections, and several chunks of one connection, wait side by
side. One thread serves all connections, in some 50 microseconds a chunk. The entries have to be those of
paced_source.py. The program prints `{"port": N}`, a free port of 127.0.0.1 where it listens. It reads words from its
standard input, each on a line, and answers each by a line of JSON:

    report    the entries that arrived, those that came again, and the chunks; the number of the first entry that is
              missing, and the moment; the median and the 99th percentile of the milliseconds that entries took, from
              number FIRST on
    away      it closes all connections, and does not listen any more
    back      it listens again, at the same port
"""

import collections
import contextlib
import json
import selectors
import socket
import sys
import time

import msgpack

from paced_source import ENTRY

HOST = "127.0.0.1"
PIECE = 1 << 18
GROWTH = bytes(1 << 20)


class Hop:
    """The connections, the chunks that wait for their acknowledgement, and what arrived."""

    def __init__(self, delay, first):
        self.delay, self.first, self.port = delay, first, 0
        self.ready = selectors.SelectSelector()  # epoll would wait for whole milliseconds
        self.streams, self.waiting = {}, collections.deque()
        self.is_there, self.times, self.arrived, self.repeated, self.chunks = bytearray(), [], 0, 0, 0
        self.back()
        self.ready.register(sys.stdin, selectors.EVENT_READ)

    def back(self):
        """Listens, always at the same port."""
        self.listener = socket.create_server((HOST, self.port), backlog=64)
        self.port = self.listener.getsockname()[1]
        self.ready.register(self.listener, selectors.EVENT_READ)
        return {"port": self.port}

    def away(self):
        """Closes the listener and all connections."""
        for link in [self.listener, *self.streams]:
            self.close(link)
        return {}

    def close(self, link):
        """Closes a connection or the listener."""
        self.streams.pop(link, None)
        self.ready.unregister(link)
        link.close()

    def report(self):
        """What arrived so far."""
        times, missing = sorted(self.times), self.is_there.find(0)
        median, p99 = (times[len(times) * part // 100] / 1e6 if times else None for part in (50, 99))
        return {
            "now": time.monotonic(),
            "arrived": self.arrived,
            "repeated": self.repeated,
            "chunks": self.chunks,
            "missing": len(self.is_there) if missing < 0 else missing,
            "median": median,
            "p99": p99,
        }

    def run(self):
        """Serves until the standard input ends."""
        while True:
            wait = max(0.0, self.waiting[0][0] - time.monotonic()) if self.waiting else None
            for key, _ in self.ready.select(wait):
                if key.fileobj is sys.stdin:
                    if not (line := sys.stdin.readline()):
                        return
                    print(json.dumps(getattr(self, line.strip())()), flush=True)
                elif key.fileobj is self.listener:
                    self.accept()
                elif key.fileobj in self.streams:
                    self.read(key.fileobj)
            self.acknowledge()

    def accept(self):
        """Takes a connection."""
        link, _ = self.listener.accept()
        link.setsockopt(socket.IPPROTO_TCP, socket.TCP_NODELAY, 1)
        self.streams[link] = msgpack.Unpacker(max_buffer_size=0)
        self.ready.register(link, selectors.EVENT_READ)

    def read(self, link):
        """Notes the chunks that came over a connection."""
        piece = b""
        with contextlib.suppress(OSError):
            piece = link.recv(PIECE)
        if not piece:
            return self.close(link)
        now, stream = time.monotonic_ns(), self.streams[link]
        stream.feed(piece)
        for _, packed, option in stream:
            self.note(packed, now)
            self.waiting.append((now / 1e9 + self.delay, link, option["chunk"]))

    def note(self, packed, now):
        """Notes the entries of a chunk."""
        self.chunks += 1
        for number, sent in ENTRY.iter_unpack(packed):
            while number >= len(self.is_there):
                self.is_there += GROWTH
            if self.is_there[number]:
                self.repeated += 1
                continue
            self.is_there[number] = 1
            self.arrived += 1
            if number >= self.first:
                self.times.append(now - sent)

    def acknowledge(self):
        """Acknowledges the chunks whose delay is over."""
        now, acks = time.monotonic(), collections.defaultdict(bytes)
        while self.waiting and self.waiting[0][0] <= now:
            _, link, name = self.waiting.popleft()
            acks[link] += msgpack.packb({"ack": name})
        for link, joined in acks.items():
            with contextlib.suppress(OSError):  # the connection may be closed by now
                link.sendall(joined)


def main():
    """Serves with the delay of the arguments."""
    hop = Hop(float(sys.argv[1]) / 1000, int(sys.argv[2]))
    print(json.dumps({"port": hop.port}), flush=True)
    hop.run()


main()
