"""Who waits while a relay is under stress, and for how long: what the cases here share."""

import contextlib
import json
import pathlib
import struct
import subprocess
import sys
import threading
import warnings

from forward import connect
from relay import Child, until

HERE = pathlib.Path(__file__).parent
TIME = b"\xce\x65\x00\x00\x00"
RECORD = b"\x81\xa1n\xce\x00\x01\x02\x03"
ENTRY = 14  # bytes of an entry of `requests`, as it is kept
ACK = 14  # bytes of an acknowledgement of a request of `requests`


def within(what, value, aim, most):
    """Says a figure, with a warning where it misses its aim, as it may on a busy machine. None may be above the most."""
    text = f"{what}: {value:,.4g} (aim: at most {aim:,g})"
    print(text)
    assert value <= most, f"{text}, and above {most:,g}"
    if value > aim:
        warnings.warn(text, stacklevel=2)


class Probe(Child):
    """Who asks again and again (`probe.py`), beside processes that may wait for a core too."""

    def __init__(self, kind, port, parts, *key):
        pids = ",".join(str(part.process.pid) for part in parts)
        words = [sys.executable, HERE / "probe.py", kind, port, pids, *key]
        super().__init__(words, parts[0].said_path.with_name(f"probe-{kind}"))
        self.begin(stdin=subprocess.PIPE, stdout=subprocess.PIPE, bufsize=0)
        self.hear()

    def hear(self):
        """A line of JSON."""
        return json.loads(self.process.stdout.readline())

    def since(self):
        """What was since it was asked last."""
        self.process.stdin.write(b"\n")
        told = self.hear()
        assert "wrong" not in told, told
        return told

    def answered(self):
        """What was since it was asked last, where somebody was answered since."""
        told = self.since()
        return told if told["count"] > 0 else None

    def waited(self, what):
        """Says how long somebody waited for an answer since it was asked last, without what was waited for a core."""
        told = until(self.answered, f"{what}: nobody is answered")
        within(f"{what}, ms", told["own"], 100, 1_000)


def text(value):
    """A str of less than 65,536 bytes (MessagePack specification, "str format family")."""
    return b"\xda" + struct.pack(">H", len(value)) + value


def request(tag, chunk, record=RECORD):
    """A request of one entry, in Message mode, which asks for an acknowledgement."""
    return b"\x94" + text(tag) + TIME + record + b"\x81\xa5chunk\xa8" + chunk


def filled(size):
    """A record of so many bytes, 32 at least."""
    return b"\x81\xa1n\xc6" + struct.pack(">I", size - 8) + bytes(size - 8)


def requests(tag, first, count):
    """So many requests of one entry, from a number on, each with a chunk of eight digits."""
    front = request(tag, b"")
    return b"".join([front + b"%08x" % number for number in range(first, first + count)])


class Owed(threading.Thread):
    """A source that sends so many requests, and reads their acknowledgements."""

    def __init__(self, port, count, first=0):
        super().__init__(daemon=True)
        self.link = connect(port, 120).link
        self.count, self.first = count, first
        self.is_told = False

    def send(self, tag=b"held"):
        """Sends them all, and reads from now on."""
        self.link.sendall(requests(tag, self.first, self.count))
        self.start()

    def run(self):
        """Reads the acknowledgements: each comes once."""
        with contextlib.suppress(OSError):
            data = bytearray()
            while len(data) < self.count * ACK and (more := self.link.recv(1 << 20)):
                data += more
            told = {bytes(data[at + ACK - 8 : at + ACK]) for at in range(0, len(data), ACK)}
            self.is_told = told == {b"%08x" % number for number in range(self.first, self.first + self.count)}

    def close(self):
        """Closes the connection."""
        with contextlib.suppress(OSError):
            self.link.shutdown(2)
        self.link.close()
