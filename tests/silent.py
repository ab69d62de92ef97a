"""Sources that never ask for acknowledgements, as plain sockets, and what the next hop has of theirs."""

import contextlib
import fcntl
import os
import pathlib
import signal
import socket
import struct
import termios
import threading
import time

from forward import connect, request
from relay import DEADLINE, until

SIZE = 1_000  # bytes of a request, if a test does not say otherwise
NUMBERS = 1_000_000  # that each source may use
SO_SNDBUFFORCE = 32  # asm-generic/socket.h: as SO_SNDBUF, but root may exceed net.core.wmem_max


def piece(number, size=SIZE, chunk=None):
    """A request of exactly `size` bytes, 310 to 65,000, with one entry that carries a number."""
    made = lambda length: request("message", "app", [(1, {"n": number, "s": "x" * length})], chunk)
    found = made(size - len(made(256)) + 256)
    assert len(found) == size
    return found


class Silent:
    """A source that never asks: what it wrote, and how much of that its system took."""

    def __init__(self, place, port, nagle=False, room=None, size=SIZE):
        self.front, self.size = NUMBERS * (place + 1), size
        self.link = connect(port).link
        if nagle:
            self.link.setsockopt(socket.IPPROTO_TCP, socket.TCP_NODELAY, 0)
        if room:
            self.make_room(room)
        self.made = self.taken = 0

    def make_room(self, size):
        """Has its system take so many bytes of requests that the relay has not read, or fewer if this is not root."""
        try:
            self.link.setsockopt(socket.SOL_SOCKET, SO_SNDBUFFORCE, size)
        except PermissionError:
            self.link.setsockopt(socket.SOL_SOCKET, socket.SO_SNDBUF, size)

    def next_pieces(self, count):
        """Its next requests."""
        front = self.front + self.made
        self.made += count
        return [piece(number, self.size) for number in range(front, front + count)]

    def write(self, count):
        """Writes so many requests in one go, but only what its system takes at once."""
        self.link.setblocking(False)
        sent, at = b"".join(self.next_pieces(count)), 0
        with contextlib.suppress(BlockingIOError):
            while at < len(sent):
                at += self.link.send(sent[at:])
        self.link.settimeout(DEADLINE)
        self.taken += at // self.size

    def send(self, count, pause=0.0):
        """Writes so many requests one by one; OSError if a write fails."""
        for sent in self.next_pieces(count):
            self.link.sendall(sent)
            self.taken += 1
            if pause:
                time.sleep(pause)

    def go_on(self, most=100):
        """Writes requests until a write fails, or so many: how many its system took. They are not counted as written."""
        done = 0
        with contextlib.suppress(OSError):
            for done in range(most):
                self.link.sendall(piece(0, self.size))
                time.sleep(0.01)
        return done

    def await_end(self):
        """Waits until the relay has ended its side of the connection."""
        self.link.settimeout(DEADLINE)
        assert self.link.recv(1) == b""

    def end_side(self):
        """Ends its own side of the connection."""
        self.link.shutdown(socket.SHUT_WR)

    def close(self):
        """Closes the connection. Its system still sends what it took."""
        self.link.close()

    def is_with_relay(self):
        """Whether the relay's system has acknowledged all that this one's took."""
        (held,) = struct.unpack("i", fcntl.ioctl(self.link, termios.TIOCOUTQ, bytes(4)))
        return held == 0

    def missing(self, had):
        """The numbers of the requests that its system took, but for those that the next hop had."""
        return [number for number in range(self.front, self.front + self.taken) if number not in had]


class Bursts(threading.Thread):
    """A client as Go's fluent logger is without acknowledgements.

    It writes lines one by one, and looks only at whether a write fails. Then it connects again, and writes that line
    again. A line is lost if its write succeeded and the next hop never has it.
    """

    def __init__(self, place, port, lines=50, pause=0.2, size=SIZE):
        super().__init__(daemon=True)
        self.front, self.port, self.lines, self.pause, self.size = NUMBERS * (place + 1), port, lines, pause, size
        self.taken, self.failed, self.link, self.ends = 0, 0, None, threading.Event()
        self.start()

    def run(self):
        """Burst after burst, and then it closes."""
        while not self.ends.wait(self.pause):
            front = self.front + self.taken
            for line in [piece(number, self.size) for number in range(front, front + self.lines)]:
                self.write(line)
                self.taken += 1
        if self.link:
            self.link.close()

    def write(self, line):
        """Writes a line, over as many connections as that takes."""
        while True:
            try:
                self.link = self.link or connect(self.port).link
                return self.link.sendall(line)
            except OSError:
                self.failed += 1
                self.link = self.link and self.link.close()
                time.sleep(0.02)

    def end(self):
        """Lets it end after a burst."""
        self.ends.set()
        self.join(DEADLINE)
        assert not self.is_alive(), "it does not come to its end"

    def missing(self, had):
        """The numbers of its lines, but for those that the next hop had."""
        return [number for number in range(self.front, self.front + self.taken) if number not in had]


def had_by(hop):
    """The numbers of the entries that a server got."""
    return {record["n"] for _, _, record in hop.entries()}


@contextlib.contextmanager
def frozen(one):
    """Has a relay do nothing meanwhile, as on a machine that is busy. The kernel goes on taking bytes for it."""
    one.process.send_signal(signal.SIGSTOP)
    tasks = pathlib.Path(f"/proc/{one.process.pid}/task")
    until(lambda: all(is_frozen(tasks / task) for task in os.listdir(tasks)), "a thread goes on")
    try:
        yield
    finally:
        one.process.send_signal(signal.SIGCONT)


def is_frozen(task):
    """Whether a thread is stopped, by its folder in /proc."""
    return (task / "stat").read_text().rpartition(")")[2].split()[0] == "T"
