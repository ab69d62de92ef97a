"""Sends one request in small pieces, as a slow network brings it, and prints what the process in the middle took.

    /usr/bin/python3 pieces.py PORT MODE BYTES PIECE PAUSE_US PID

The request has about BYTES bytes of entries, in MODE (forward or packed), and each PIECE bytes of it are followed by a
pause. It prints how long it took to send, how long the acknowledgement took behind that, and the processor milliseconds
of PID meanwhile, which the scheduler counts in nanoseconds.
"""

import base64
import os
import pathlib
import socket
import sys
import time

ENTRY = b"\x92\xce\x65\x53\xf1\x00\x81\xa7message\xd9\xb0" + b"x" * 0xB0


def request(mode, size, chunk):
    """A request with a chunk option."""
    count = size // len(ENTRY)
    many = count * len(ENTRY) if mode == "packed" else count
    head = {"packed": b"\xc6", "forward": b"\xdd"}[mode] + many.to_bytes(4, "big")
    return b"\x93\xa3app" + head + ENTRY * count + b"\x81\xa5chunk\xb8" + chunk


def processor_ms(pid):
    """User and system milliseconds that the threads of a process took."""
    threads = pathlib.Path(f"/proc/{pid}/task").iterdir()
    return sum(int((thread / "schedstat").read_text().split()[0]) for thread in threads) / 1e6


def main(port, mode, size, piece, pause_us, pid):
    chunk = base64.b64encode(os.urandom(16))
    whole = request(mode, size, chunk)
    stream = socket.create_connection(("127.0.0.1", port), timeout=60)
    stream.setsockopt(socket.IPPROTO_TCP, socket.TCP_NODELAY, 1)
    before, start = processor_ms(pid), time.monotonic()
    for at in range(0, len(whole), piece):
        stream.sendall(whole[at : at + piece])
        time.sleep(pause_us / 1e6)
    sent = time.monotonic()
    heard = stream.recv(100)
    end = time.monotonic()
    assert heard.endswith(chunk), heard
    took = processor_ms(pid) - before
    print(
        f"a {mode} request of {len(whole)} bytes in pieces of {piece}, {pause_us} us apart: sent in {sent - start:.2f} s, "
        f"acknowledged {end - sent:.3f} s later, {took:.1f} processor ms"
    )


port, mode, *numbers = sys.argv[1:]
main(int(port), mode, *map(int, numbers))
