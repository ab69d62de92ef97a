"""A journal that nobody reads, or reads slowly: the relay goes on, and ends."""

import array
import contextlib
import fcntl
import os
import re
import socket
import subprocess
import termios
import threading
import time

import pytest

from documents import journal_pattern
from relay import STAMP, free_ports, until

PIPE = 4096  # bytes
QUEUE = 65_536  # bytes that the relay keeps (docs/FORMATS.md, "What a run says as it goes on")
SET_PIPE_SIZE = 1031  # F_SETPIPE_SZ
CONNECTIONS = 8
LINE = re.compile(f"{STAMP.pattern}(?:{journal_pattern().pattern})\n")
LEFT_OUT = re.compile(r" journal: ([1-9]\d*) left out$", re.MULTILINE)


class Pipe:
    """A pipe of a few bytes, as standard error of a program: what waits in it, and what is read."""

    def __init__(self):
        self.mine, self.theirs = os.pipe()
        self.seen = (0, 0.0)
        fcntl.fcntl(self.theirs, SET_PIPE_SIZE, PIPE)

    def waiting(self):
        """How many bytes it holds."""
        count = array.array("i", [0])
        fcntl.ioctl(self.mine, termios.FIONREAD, count)
        return count[0]

    def is_full(self):
        """Whether it takes nothing more: it holds most of its bytes, and as many for two seconds."""
        count, now = self.waiting(), time.monotonic()
        if count != self.seen[0]:
            self.seen = (count, now)
        return count > PIPE // 2 and now - self.seen[1] > 2

    def fill(self):
        """Fills it to the last byte."""
        os.write(self.theirs, b" " * (PIPE - self.waiting()))

    def read(self, is_enough, seconds=60):
        """What it gives until it is enough."""
        os.set_blocking(self.mine, False)
        text, end = "", time.monotonic() + seconds
        while not is_enough(text) and time.monotonic() < end:
            try:
                text += os.read(self.mine, PIPE).decode()
            except BlockingIOError:
                time.sleep(0.01)
        return text

    def close(self):
        """Nobody reads it any more."""
        os.close(self.mine)


def outputs(port):
    """An output with a good server, and one whose workers find none, and say so."""
    nobody = free_ports(1)[0]
    lost = [{"port": nobody}, {"port": nobody, "address": f"127.0.0.2:{nobody}"}]
    waits = {"retry_wait": 1, "retry_max": 1, "workers": 16}
    return [{"match": "good", "servers": [port]}, {"match": "lost", "servers": lost, **waits}]


@pytest.fixture
def blocked(relay, next_hop):
    """A relay whose journal goes to a pipe that nobody reads, with servers that are lost."""
    pipe = Pipe()
    one = relay(outputs(next_hop().port), connections=CONNECTIONS, errors=pipe.theirs)
    os.close(pipe.theirs)
    one.source().send("lost")
    return one, pipe


def misbehave(one):
    """Some connections that send no request, and some more than there may be."""
    with contextlib.suppress(OSError), contextlib.ExitStack() as stack:
        for _ in range(CONNECTIONS + 4):
            stack.enter_context(socket.create_connection(("127.0.0.1", one.port), 1)).sendall(b"\xc1")


def misbehave_until(one, is_so, seconds=120):
    """Fills the journal until something is so."""
    until(lambda: misbehave(one) or is_so(), "the journal does not fill", seconds, 0.05)


def answers(one):
    """Requests are acknowledged, and the page is had."""
    for _ in range(20):
        until(lambda: is_told(one), "no acknowledgement")
    assert one.page()[0].accepted >= 20


def is_told(one):
    """Whether a request is acknowledged; its connection may be one too many."""
    try:
        source = one.source(timeout=30)
        source.ask("good")
        source.close()
        return True
    except (OSError, AssertionError):
        return False


@pytest.mark.quick
def test_reader_is_slow(blocked):
    """A full pipe holds nothing up; once it is read, its lines are whole."""
    one, pipe = blocked
    answers(one)
    misbehave_until(one, pipe.is_full)
    answers(one)
    text = pipe.read(lambda text: text.count("\n") > 100)
    lines = text.splitlines(keepends=True)[:-1]
    assert lines and all(LINE.fullmatch(line) for line in lines), text[-500:]
    assert one.is_up()


@pytest.mark.quick
def test_reader_is_gone(blocked):
    """A pipe whose other end is closed ends nothing and holds nothing up."""
    one, pipe = blocked
    answers(one)
    pipe.close()
    for _ in range(3):
        misbehave(one)
    answers(one)
    assert one.is_up()


@pytest.mark.minutes
def test_queue_is_full(blocked):
    """Behind a full pipe the queue fills up too; what was left out is told in a line."""
    one, pipe = blocked
    # Pipe and queue take some 70,000 bytes, at four times ten lines a second.
    end = time.monotonic() + 60
    misbehave_until(one, lambda: time.monotonic() > end)
    until(pipe.is_full, "the pipe takes more")
    answers(one)
    text = pipe.read(LEFT_OUT.search)
    assert len(text) > QUEUE // 2 and LEFT_OUT.search(text), text[-500:]
    assert all(LINE.fullmatch(line) for line in text.splitlines(keepends=True)[:-1])


@pytest.mark.quick
def test_a_run_ends(relay, next_hop):
    """A run of some turns ends with 0 and its page, while nobody reads its full pipe."""
    pipe = Pipe()
    pipe.fill()
    one = relay(outputs(next_hop().port), turns=30, errors=pipe.theirs, stdout=subprocess.PIPE)
    os.close(pipe.theirs)
    stop = threading.Event()
    threading.Thread(target=lambda: [misbehave(one) for _ in iter(stop.is_set, True)], daemon=True).start()
    try:
        page = one.process.stdout.readline()
        seen = time.monotonic()
        status = one.ended()
        took = time.monotonic() - seen
    finally:
        stop.set()
    assert page.startswith(b"output 0 accepted "), page
    assert status == 0 and pipe.waiting() == PIPE
    assert took < 20, f"it ended {took:.1f} s behind its page"
