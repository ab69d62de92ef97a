"""Standard streams that take nothing: the relay goes on."""

import os
import subprocess

import pytest

pytestmark = pytest.mark.quick


def asks(one, hop):
    """A request goes the whole way, also behind a line that could not be written."""
    with one.source() as source:
        source.ask()
    stranger = one.source()
    stranger.stream.link.sendall(b"\xc1")
    assert stranger.is_closed()
    with one.source() as source:
        source.ask()
    assert one.is_up()
    hop.await_entries(2)


def test_a_reader_that_is_gone(relay, next_hop):
    """Standard error is a pipe that nobody reads any more."""
    hop = next_hop()
    read, write = os.pipe()
    os.close(read)
    one = relay([{"servers": [hop.port]}], errors=write)
    os.close(write)
    asks(one, hop)


def test_a_full_disk(relay, next_hop):
    """Standard error is a file that takes no byte."""
    hop = next_hop()
    with open("/dev/full", "wb") as full:
        asks(relay([{"servers": [hop.port]}], errors=full, stdout=full), hop)


def test_closed_streams(relay, next_hop):
    """No standard stream is open."""
    hop = next_hop()
    closed = ["sh", "-c", 'exec "$@" <&- >&- 2>&-', "sh"]
    asks(relay([{"servers": [hop.port]}], errors=subprocess.DEVNULL, under=closed), hop)
