"""A frame that goes out in several parts of memory, as one write of them: each byte of it, as the next hop gets it."""

import base64
import socket
import threading

import msgpack
import pytest

from forward import HOST, packed, request

pytestmark = pytest.mark.parametrize("readers", [1, 4])
SIZE = 20_000  # bytes of a request's entry: so long that the link is handed it where it lies
COUNT = 3


def record(number):
    """A record of a text of so many bytes, of which no two parts are the same."""
    return {"text": "".join(f"{number}.{place} " for place in range(SIZE))[:SIZE]}


def listen(listener, heard):
    """Takes one connection, and keeps each byte of it until a whole value came, which it acknowledges."""
    link, _ = listener.accept()
    with link:
        values = msgpack.Unpacker(max_buffer_size=0)
        while piece := link.recv(1 << 16):
            heard += piece
            values.feed(piece)
            for _tag, _entries, option in values:
                link.sendall(msgpack.packb({"ack": option["chunk"]}))


@pytest.mark.quick
def test_each_byte_of_a_frame_of_large_requests(relay):
    """Three large requests make one chunk, and its frame is these bytes."""
    heard = bytearray()
    with socket.create_server((HOST, 0)) as listener:
        threading.Thread(target=listen, args=(listener, heard), daemon=True).start()
        port = listener.getsockname()[1]
        one = relay([{"servers": [port], "flush_interval": 2_000}])
        entries = [(number, record(number)) for number in range(COUNT)]
        source = one.source()
        asked = [request("forward", "large", [entry], f"chunk {place}") for place, entry in enumerate(entries)]
        source.stream.link.sendall(b"".join(asked))
        assert [source.told() for _ in entries] == [f"chunk {place}" for place in range(COUNT)]
    joined = packed(entries)
    name = bytes(heard[-24:])
    assert len(base64.b64decode(name, validate=True)) == 16
    head = b"\x93" + msgpack.packb("large") + b"\xc5" + len(joined).to_bytes(2, "big")
    option = b"\x82" + msgpack.packb("size") + bytes([COUNT]) + msgpack.packb("chunk") + b"\xb8" + name
    assert bytes(heard) == head + joined + option
