"""Descriptors and connections run short, and what may wait before a login."""

import contextlib
import os
import re
import resource
import time

import msgpack
import pytest

from forward import Source, connect, ping
from relay import steady

pytestmark = pytest.mark.quick
KEY = "a key of both sides"
FILES = 128
CLIENTS = 300


def few(files):
    """What starts a program that may have so many files, and could ask the system for more."""
    return ["sh", "-c", f'ulimit -S -n {files}; exec "$@"', "sh"]


def is_open(stream):
    """Whether the relay has not closed a connection."""
    stream.link.setblocking(False)
    try:
        return stream.link.recv(1) != b""
    except BlockingIOError:
        return True
    except OSError:
        return False


def test_more_sources_than_files(relay, next_hop):
    """The relay says how many sources it takes, closes the others, has its page, and reaches a server that is started again."""
    hop = next_hop()
    one = relay([{"servers": [hop.port]}], under=few(FILES), connections=1024)
    told = one.await_line("few files: ")
    most = int(re.fullmatch(rf"few files: {FILES} open at most, (\d+) sources", told)[1])
    assert 50 < most < FILES
    early = one.source()
    early.ask()
    with contextlib.ExitStack() as stack:
        streams = [stack.enter_context(connect(one.port)) for _ in range(CLIENTS)]
        one.until(lambda: one.lines("over the limit: ") >= CLIENTS + 1 - most, "too few are over the limit")
        assert one.lines("over the limit: ") == CLIENTS + 1 - most
        assert sum(map(is_open, streams)) == most - 1
        for _ in range(15):
            stack.enter_context(connect(one.monitor))
        assert one.page()
        hop.end()
        hop.start()
        early.ask()


@pytest.mark.parametrize(("workers", "readers"), [(1, 1), (7, 1), (1, 3)])
def test_files_that_are_kept_apart(relay, next_hop, workers, readers):
    """16 files of its own, 16 for monitors, 5 for each worker and 2 for each reader beside the first: sources have the others."""
    one = relay([{"servers": [next_hop().port], "workers": workers}], under=few(FILES), connections=1024)
    sources = FILES - 16 - 16 - 5 * workers - 2 * (readers - 1)
    assert one.await_line("few files: ") == f"few files: {FILES} open at most, {sources} sources"


def test_files_for_all_sources(relay, next_hop):
    """Where the files are enough for as many sources as are set, nothing is said of them."""
    one = relay([{"servers": [next_hop().port]}], under=few(FILES), connections=50)
    one.source().ask()
    assert one.lines("few files: ") == 0


def test_connections(relay, next_hop):
    """One source more than `relay.connections` is closed at once, and others are none the worse."""
    one = relay([{"servers": [next_hop().port]}], connections=2)
    first, second, third = (one.source() for _ in range(3))
    first.ask()
    second.ask()
    assert third.is_closed()
    one.await_line("over the limit: source 127.0.0.1:\\d+")
    first.close()
    one.until(lambda: is_let_in(one), "no source is let in where another left")


def is_let_in(one):
    """Whether a further source is acknowledged."""
    try:
        with Source(one.port) as source:
            source.ask()
        return True
    except OSError:
        return False


def limit_files(one, files):
    """From now on a relay may have files below this number: what it could have before."""
    before, most = resource.prlimit(one.process.pid, resource.RLIMIT_NOFILE)
    resource.prlimit(one.process.pid, resource.RLIMIT_NOFILE, (files, most))
    return before


def test_no_file_for_a_while(relay, next_hop):
    """No file is left for a source and for a server: it says so, does not spin, and goes on once there is one."""
    one = relay([{"servers": [next_hop().port]}])
    early = one.source(timeout=60)
    used = steady(lambda: set(os.listdir(f"/proc/{one.process.pid}/fd")))
    before = limit_files(one, min(number for number in range(999) if str(number) not in used))
    late = one.source(timeout=60)
    early.send(chunk="early")
    one.await_line("no descriptor: source")
    one.await_line("server lost: output 0 .* Descriptors")
    said = one.lines("no descriptor: source")
    time.sleep(2)
    assert one.lines("no descriptor: source") - said < 200, "the loop spins: it tries ten times a second"
    limit_files(one, before)
    assert early.told() == "early"
    late.ask()


def test_before_a_ping(relay, next_hop):
    """A PING of 4,000 bytes may come in two pieces; 5,000 bytes of a longer one may not wait."""
    one = relay([{"servers": [next_hop().port]}], shared_key=KEY)
    with connect(one.port) as stream:
        said = msgpack.packb(ping(stream.value(), KEY, salt=bytes(3_700)))
        stream.link.sendall(said[:2_000])
        stream.hears_nothing(0.2)
        stream.link.sendall(said[2_000:])
        assert stream.value()[:2] == ["PONG", True]
    with connect(one.port) as stream:
        said = msgpack.packb(ping(stream.value(), KEY, salt=bytes(60_000)))
        stream.link.sendall(said[:5_000])
        assert stream.is_closed(30), "5,000 bytes wait before a PING"


def test_who_does_not_log_in(relay, next_hop):
    """A source that has not logged in 30 s after it came is closed. One that has stays, and so does one without a key."""
    server = {"servers": [next_hop().port]}
    keyed, open_to_all = relay([server], shared_key=KEY), relay([server])
    silent = [keyed.source(key=KEY), open_to_all.source()]
    with connect(keyed.port) as late:
        late.value()
        late.hears_nothing(20)
        assert late.is_closed(30), "it has not logged in, and stays"
    keyed.await_line("source closed: .* NoLogin")
    for source in silent:
        source.ask()
    assert not any("source closed" in line for line in open_to_all.journal().splitlines())
