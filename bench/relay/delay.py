"""Stands before a server as one that is far away: each byte, either way, goes on so many milliseconds after it came.

    /usr/bin/python3 delay.py MS PORT

It prints `port N`, a free port of 127.0.0.1 that it listens at, connects to PORT of 127.0.0.1 for each connection, and
runs until it is ended. Where a side closes, the other learns it so much later, too.
"""

import queue
import socket
import sys
import threading
import time


def receive(stream, later, delay):
    """Notes what comes, and when it is to go on."""
    data = b"more"
    while data:
        try:
            data = stream.recv(1 << 20)
        except OSError:
            data = b""
        later.put((time.monotonic() + delay, data))


def send(stream, later):
    """Hands on what was noted, once it is time."""
    while True:
        due, data = later.get()
        time.sleep(max(0.0, due - time.monotonic()))
        try:
            if not data:
                stream.shutdown(socket.SHUT_WR)
                return
            stream.sendall(data)
        except OSError:
            return


def join(here, there, delay):
    """One way from here to there."""
    later = queue.SimpleQueue()
    threading.Thread(target=receive, args=(here, later, delay), daemon=True).start()
    threading.Thread(target=send, args=(there, later), daemon=True).start()


def quick(stream):
    stream.setsockopt(socket.IPPROTO_TCP, socket.TCP_NODELAY, 1)
    return stream


def main():
    delay, port = float(sys.argv[1]) / 1000, int(sys.argv[2])
    listener = socket.create_server(("127.0.0.1", 0), backlog=64)
    print("port", listener.getsockname()[1], flush=True)
    while True:
        here = quick(listener.accept()[0])
        there = quick(socket.create_connection(("127.0.0.1", port)))
        join(here, there, delay)
        join(there, here, delay)


main()
