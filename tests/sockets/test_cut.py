"""Requests that come in two reads, cut at each place: what the next hop gets is what was sent, byte for byte."""

import pathlib

import pytest

FF = b"\xff" * 5
TIME = b"\xce" + b"\xff" * 4
RECORD = b"\x83\xa3bin\xc4\x05" + FF + b"\xa3str\xa5" + FF + b"\xa4ints\x95" + FF  # each of the integers is -1
OPTION = b"\x81\xa5chunk\xa1x"
ENTRIES = {"message": 1, "forward": 2, "packed": 2}


def entries(mode):
    """The bytes of a request's entries, as the next hop gets them."""
    return (b"\x92" + TIME + RECORD) * ENTRIES[mode]


def request(mode, tag):
    """The bytes of a request, most of whose entries' bytes are 0xff."""
    tag = bytes([0xA0 + len(tag)]) + tag.encode()
    if mode == "message":
        return b"\x94" + tag + TIME + RECORD + OPTION
    joined = entries(mode)
    head = b"\x92" if mode == "forward" else b"\xc4" + bytes([len(joined)])
    return b"\x93" + tag + head + joined + OPTION


def is_all_read(port):
    """Whether a relay at a port has read all that was sent to it, as the system's table of sockets tells."""
    for line in pathlib.Path("/proc/net/tcp").read_text().splitlines()[1:]:
        _, here, there, _, queues, *_ = line.split()
        unsent, unread = (int(count, 16) for count in queues.split(":"))
        at, to = (int(address.rpartition(":")[2], 16) for address in (here, there))
        if at == port and unread or to == port and unsent:
            return False
    return True


@pytest.mark.quick
@pytest.mark.parametrize("mode", ENTRIES)
def test_cut_at_each_place(relay, next_hop, mode):
    """The second piece is sent once the first one was read. Many of either begin with 0xff, or end with it."""
    hop = next_hop()
    one = relay([{"servers": [hop.port]}])
    places = range(1, len(request(mode, "cut.000")))
    asked = {place: request(mode, f"cut.{place:03}") for place in places}
    sources = {place: one.source(timeout=60) for place in places}
    for place in places:
        sources[place].stream.link.sendall(asked[place][:place])
    one.until(lambda: is_all_read(one.port), "the first pieces are not read")
    for place in places:
        sources[place].stream.link.sendall(asked[place][place:])
    for place in places:
        assert sources[place].told() == "x"
    assert {frame.tag: frame.packed for frame in hop.frames} == {f"cut.{place:03}": entries(mode) for place in places}
