"""A client that sends lines until it is terminated, and notes them.

    /usr/bin/python3 clients.py asking|silent PORT FOLDER

It appends each line to FOLDER/NAME.sent before it is sent, and to FOLDER/NAME.held once it is acknowledged. `asking`
sends each request again until it is acknowledged, and ends once it has been for those under way. `silent` is
python3-fluent-logger, which never asks. A line is a tag, a time and a message, which ends in the only dot of it.
"""

import os
import pathlib
import random
import signal
import sys
import threading
import time

sys.path[:0] = [str(pathlib.Path(__file__).parents[2] / part) for part in ("tests", "tools")]
from forward import Source, event_time  # noqa: E402

THREADS = 3
ACK_TIMEOUT = 20  # seconds that an acknowledgement is waited for

stop = threading.Event()


class Note:
    """A file that lines are appended to, each time in one call."""

    def __init__(self, path):
        self.file = os.open(path, os.O_WRONLY | os.O_APPEND | os.O_CREAT)

    def add(self, lines):
        """Appends lines."""
        text = "".join(lines).encode()
        assert os.write(self.file, text) == len(text)


def message(name, number):
    """A message of its own: words, and up to 400 digits that are drawn."""
    return f"{name} {number} {random.randbytes(random.randrange(200)).hex()}."


class Asking(threading.Thread):
    """Sends requests in Forward mode over a connection, one after the other, each until it is acknowledged."""

    def __init__(self, port, name, sent, held):
        super().__init__()
        self.port, self.name, self.sent, self.held = port, name, sent, held
        self.tag = f"chain.{name}"
        self.source = None

    def run(self):
        """Until it is stopped."""
        number = 0
        while not stop.is_set():
            lines, entries = [], []
            for _ in range(random.choice((1, 3, 50))):
                number += 1
                text, now, part = message(self.name, number), int(time.time()), random.randrange(10**9)
                lines.append(f"{self.tag} {now}.{part:09d} {text}\n")
                entries.append((event_time(now, part), {"message": text}))
            self.sent.add(lines)
            while not self.is_delivered(entries):
                self.source = None
                time.sleep(0.2)
            self.held.add(lines)
            time.sleep(0.05)

    def is_delivered(self, entries):
        """Sends a request once, and whether its acknowledgement came."""
        try:
            self.source = self.source or Source(self.port, timeout=ACK_TIMEOUT)
            self.source.ask(self.tag, entries)
            return True
        except OSError:
            return False  # it was killed, or is not there, or is late


def be_asking(port, folder):
    """One file for all threads: a line says which of them it is of."""
    sent, held = Note(folder / "asking.sent"), Note(folder / "asking.held")
    threads = [Asking(port, f"asking{place}", sent, held) for place in range(THREADS)]
    for thread in threads:
        thread.start()
    for thread in threads:
        thread.join()


def be_silent(port, folder):
    """Integer times. What the logger could not send it keeps, and sends before the next line."""
    from fluent import sender

    sent = Note(folder / "silent.sent")
    logger = sender.FluentSender("chain", host="127.0.0.1", port=port)
    number = 0
    while not stop.is_set():
        number += 1
        text, now = message("silent", number), int(time.time())
        sent.add([f"chain.silent {now} {text}\n"])
        logger.emit_with_time("silent", now, {"message": text})
        time.sleep(0.05)
    logger.close()


if __name__ == "__main__":
    signal.signal(signal.SIGTERM, lambda *_: stop.set())
    kind, port, folder = sys.argv[1:]
    {"asking": be_asking, "silent": be_silent}[kind](int(port), pathlib.Path(folder))
