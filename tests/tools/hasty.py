"""A relay for tests of the demo, which acknowledges too early.

    hasty.py always|away run SETTINGS

It acknowledges each request at once: always, or only while its next hop is away, and else after the next hop.
"""

import re
import socket
import sys
import threading

import msgpack

from next_hop import HOST, Values


def forward(port, tag, moment, record, name):
    """Has the next hop take an entry; OSError where it does not."""
    with socket.create_connection((HOST, port)) as link:
        stream = Values(link)
        stream.send([tag, msgpack.packb([moment, record]), {"size": 1, "chunk": name}])
        assert stream.value() == {"ack": name}


def serve(link, port, is_hasty):
    """Takes the requests of a source."""
    stream = Values(link, timeout=None)
    while True:
        tag, moment, record, option = stream.value()
        if is_hasty:
            stream.send({"ack": option["chunk"]})
        try:
            forward(port, tag, moment, record, option["chunk"])
        except OSError:
            pass
        if not is_hasty:
            stream.send({"ack": option["chunk"]})


def show(link):
    """Answers a monitor: one entry is held."""
    page = b"output 0 accepted 2 settled 1 held 1 bytes 9 chunks 1\n"
    if link.recv(4096):
        link.sendall(b"HTTP/1.0 200 OK\r\nContent-Length: %d\r\n\r\n%b" % (len(page), page))
    link.close()


def listen(port, serve, *arguments):
    """Serves each connection to a port in a thread."""
    listener = socket.create_server((HOST, port))

    def take():
        while True:
            link, _ = listener.accept()
            threading.Thread(target=serve, args=(link, *arguments), daemon=True).start()

    threading.Thread(target=take, daemon=True).start()


def main():
    when, word, *settings = sys.argv[1:]
    if word == "version":
        print("hasty")
        return
    with open(settings[0]) as file:
        sources, monitor, next_hop = map(int, re.findall(r'"127\.0\.0\.1:(\d+)"', file.read()))
    listen(sources, serve, next_hop, when == "always")
    listen(monitor, show)
    threading.Event().wait()


if __name__ == "__main__":
    main()
