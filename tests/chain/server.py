"""A server that writes a line for each entry, and acknowledges a chunk once the lines of all its entries are written.

    /usr/bin/python3 server.py PORT FILE

A line is the entry's tag, its time and its message. It needs Debian's python3-msgpack.
"""

import os
import pathlib
import sys
import threading

import msgpack

sys.path[:0] = [str(pathlib.Path(__file__).parents[2] / part) for part in ("tests", "tools")]
from next_hop import NextHop  # noqa: E402


def time_text(moment):
    """A time as seconds and nanoseconds, or as seconds alone where it is an integer."""
    if isinstance(moment, msgpack.ExtType):
        return "%d.%09d" % (int.from_bytes(moment.data[:4], "big"), int.from_bytes(moment.data[4:], "big"))
    return str(moment)


def line_of(tag, moment, record):
    """The line of an entry. One whose record has not just a message is no line that a client sent."""
    message = record["message"] if list(record) == ["message"] else repr(record)
    return f"{tag} {time_text(moment)} {message}\n".encode()


class Kept:
    """The file of lines. Where an earlier server was killed within a line, the next one begins behind it."""

    def __init__(self, path):
        self.file = os.open(path, os.O_WRONLY | os.O_APPEND | os.O_CREAT)
        self.lock = threading.Lock()
        self.write(b"\n")

    def write(self, text):
        """Appends a text."""
        with self.lock:
            while text:
                text = text[os.write(self.file, text) :]

    def take(self, frame):
        """Writes the lines of a chunk."""
        self.write(b"".join(line_of(*entry) for entry in frame.entries()))


if __name__ == "__main__":
    NextHop(int(sys.argv[1]), take=Kept(sys.argv[2]).take)
    threading.Event().wait()
