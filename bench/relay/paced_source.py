"""Sources that send entries of 100 bytes at a steady pace, and do not ask for acknowledgements.

    /usr/bin/python3 paced_source.py PORT TAGS RATE SECONDS

The sources send RATE entries a second together, for so many seconds. Each entry is a request of its own in Message
mode, and the entries go round TAGS tags. There are at most ten connections, and each tag keeps to one of them. The
program wakes every half a millisecond at most, and sends what is due: some ten entries at a time if the rate is 20,000.
An entry holds its number, and the nanoseconds of the monotonic clock. In the end the program prints a line of JSON:
when it began, how many entries it sent, and by how many seconds it was late at worst. It keeps its connections until
its standard input ends.
"""

import json
import socket
import struct
import sys
import time

LINKS = 10
TICK = 0.0005  # seconds
SIZE = 100  # bytes of an entry
PATIENCE = 30  # seconds that the relay may read nothing
BEGIN, MIDDLE, END = b"\x83\xa1n\xcf", b"\xa1t\xcf", b"\xa1m\xd9\x43" + b"x" * 67
TIME = b"\xce\x65\x53\xf1\x00"
NUMBER = struct.Struct(">Q")
ENTRY = struct.Struct(f">x{len(TIME + BEGIN)}xQ{len(MIDDLE)}xQ{len(END)}x")  # with the head of its array
assert ENTRY.size == SIZE


def front(tag):
    """A request, as far as the entry's number."""
    name = f"app.{tag:03}".encode()
    return b"\x93" + bytes([0xA0 | len(name)]) + name + TIME + BEGIN


def send(links, fronts, numbers):
    """Sends the entries of these numbers."""
    parts, end = [[] for _ in links], MIDDLE + NUMBER.pack(time.monotonic_ns()) + END
    for number in numbers:
        tag = number % len(fronts)
        parts[tag % len(links)].append(fronts[tag] + NUMBER.pack(number) + end)
    for link, requests in zip(links, parts):
        if requests:
            link.sendall(b"".join(requests))


def main():
    """Sends each entry at its time, or at once if the program is late."""
    port, tags, rate, seconds = map(int, sys.argv[1:])
    links = [socket.create_connection(("127.0.0.1", port), PATIENCE) for _ in range(min(tags, LINKS))]
    for link in links:
        link.setsockopt(socket.IPPROTO_TCP, socket.TCP_NODELAY, 1)
    fronts = [front(tag) for tag in range(tags)]
    start, sent, late = time.monotonic(), 0, 0.0
    while (now := time.monotonic() - start) < seconds:
        late = max(late, now - sent / rate)
        due = int(now * rate) + 1
        send(links, fronts, range(sent, due))
        sent = due
        time.sleep(max(TICK, start + sent / rate - time.monotonic()))
    print(json.dumps({"start": start, "sent": sent, "late": late}), flush=True)
    sys.stdin.read()


if __name__ == "__main__":
    main()
