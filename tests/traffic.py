"""Sources that send again what was not acknowledged, servers that are honest, and what of both must hold.

Nothing is acknowledged that a server has not; no server gets but what was sent; in the end all is acknowledged.
"""

import random
import threading
import time

from forward import MODES, connect, event_time, log_in, packed, pieces, request
from next_hop import NextHop, acknowledge


class Notes:
    """What sources sent and servers had, for all threads."""

    def __init__(self):
        self.lock = threading.Lock()
        self.tags = {}  # of each entry, by its bytes
        self.had = set()  # entries that a server acknowledged, or is about to
        self.begun = self.told = self.again = self.came = self.silent = 0
        self.longest = 0.0  # seconds that a request waited on a connection that stood
        self.wrong = []

    def fail(self, why):
        """Notes what must not be."""
        with self.lock:
            self.wrong.append(why)


def honest_server(notes, key=None, pause=0.02):
    """A server that notes the entries of each chunk, and acknowledges it a moment later."""

    def take(frame):
        entries = list(pieces(frame.packed))
        time.sleep(random.random() * pause)
        with notes.lock:
            strange = [entry for entry in entries if notes.tags.get(entry) != frame.tag]
            notes.had.update(entries)
            notes.came += len(entries)
        if strange or not entries or frame.size != len(entries):
            notes.fail(f"a server got {frame!r:.300}")

    return NextHop(answer=acknowledge, key=key, take=take)


class Source(threading.Thread):
    """Sends requests of its own, and again those that were not acknowledged where its connection ends."""

    tags = ["a.one", "a.two", "b"]
    most = 40  # requests under way
    pace = 0.02  # seconds between two requests
    rest = 50  # requests behind which it waits until it is told of all
    silence = 20  # seconds that a connection stands which owes something and tells nothing

    def __init__(self, notes, number, port, login=None, wrap=None):
        super().__init__(daemon=True)
        self.notes, self.number, self.port, self.login, self.wrap = notes, number, port, login, wrap
        self.draw = random.Random(number)
        self.owed = {}  # by its chunk: a request's bytes, its entries, and when it was sent last
        self.made = 0
        self.ends = False
        self.start()

    def run(self):
        """Connects again and again, until all is told."""
        while not self.is_done():
            try:
                with connect(self.port, self.silence, self.wrap) as stream:
                    if self.login:
                        log_in(stream, *self.login)
                    self.talk(stream)
            except TimeoutError:
                self.notes.silent += 1
            except OSError:
                time.sleep(0.02)

    def is_done(self):
        """Whether it is to send nothing new, and owes nothing."""
        return self.ends and not self.owed

    def new(self):
        """A request that no other is like."""
        self.made += 1
        mode, tag = self.draw.choice(MODES), self.draw.choice(self.tags)
        entries = []
        for place in range(1 if mode == "message" else self.draw.randint(1, 5)):
            moment = self.draw.choice([1_700_000_000 + self.made, event_time(self.made, place)])
            filler = "x" * self.draw.choice([0, 5, 40, 300])
            entries.append((moment, {"n": f"{self.number}.{self.made}.{place}", "more": [None, True, filler]}))
        chunk = f"{self.number}-{self.made}"
        spelled = list(pieces(packed(entries)))
        with self.notes.lock:
            self.notes.tags.update((entry, tag) for entry in spelled)
            self.notes.begun += 1
        self.owed[chunk] = [request(mode, tag, entries, chunk), spelled, 0.0]
        return chunk

    def send(self, stream, chunk):
        """Sends a request that is owed."""
        self.owed[chunk][2] = time.monotonic()
        stream.link.sendall(self.owed[chunk][0])

    def talk(self, stream):
        """Over one connection: all that is owed once more, and then further requests."""
        with self.notes.lock:
            self.notes.again += len(self.owed)
        for chunk in list(self.owed):
            self.send(stream, chunk)
        heard = due = time.monotonic()
        while not self.is_done():
            now = time.monotonic()
            if now >= due and self.may_go_on():
                self.send(stream, self.new())
                due = max(due + self.pace, now - 1)
            value = self.value_within(stream, max(0.001, min(0.05, due - now)))
            if value is not None:
                heard = time.monotonic()
                self.hear(value)
            elif self.owed and time.monotonic() - max(heard, self.oldest()) > self.silence:
                raise TimeoutError

    def may_go_on(self):
        """Whether a further request is to be sent."""
        rests = self.made % self.rest == 0 and self.owed
        return not self.ends and not rests and len(self.owed) < self.most

    def oldest(self):
        """When the request was sent last that has waited the longest."""
        return min(sent for _, _, sent in self.owed.values())

    def value_within(self, stream, seconds):
        """The next value, or None where none comes in so long."""
        stream.link.settimeout(seconds)
        try:
            return stream.value()
        except TimeoutError:
            return None
        finally:
            stream.link.settimeout(self.silence)

    def hear(self, value):
        """Takes an answer, which has to be the acknowledgement of something that is owed here."""
        chunk = value.get("ack") if isinstance(value, dict) and len(value) == 1 else None
        if chunk not in self.owed:
            return self.notes.fail(f"a source is told {value!r:.200}")
        _, entries, sent = self.owed.pop(chunk)
        with self.notes.lock:
            self.notes.told += 1
            self.notes.longest = max(self.notes.longest, time.monotonic() - sent)
            if not self.notes.had.issuperset(entries):
                self.notes.wrong.append(f"{chunk} is told, and no server had all of it")


class Traffic:
    """Notes, servers and sources together, and what is judged of them."""

    def __init__(self, servers, key=None):
        self.notes = Notes()
        self.servers = [honest_server(self.notes, key) for _ in range(servers)]
        self.sources = []

    def begin(self, port, login=None, count=4, wrap=None):
        """Sources send to a port."""
        self.sources += [Source(self.notes, number, port, login, wrap) for number in range(count)]

    def is_well(self):
        """Nothing wrong was seen so far."""
        wrong = self.notes.wrong + [why for server in self.servers for why in server.wrong]
        assert not wrong, wrong[:3]
        assert self.notes.silent == 0, f"{self.notes.silent} connections told nothing for {Source.silence} s"
        return True

    def finish(self, seconds=120):
        """Sources send nothing new: all is told, and every entry was had."""
        for source in self.sources:
            source.ends = True
        end = time.monotonic() + seconds
        for source in self.sources:
            source.join(max(0, end - time.monotonic()))
        self.is_well()
        owed = sum(len(source.owed) for source in self.sources)
        assert owed == 0, f"{owed} requests are not told {seconds} s behind the last one"
        assert self.notes.told == self.notes.begun > 0
        assert set(self.notes.tags) == self.notes.had, "a server had not all entries"

    def close(self):
        """Ends all of it."""
        for source in self.sources:
            source.ends = True
            source.owed = {}
        for server in self.servers:
            server.end()
