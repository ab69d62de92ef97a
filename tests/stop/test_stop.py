"""A relay that is asked to stop delivers what it holds, and tells who asked."""

import fcntl
import pathlib
import select
import socket
import struct
import termios
import time

import pytest

from forward import HOST, request
from next_hop import acknowledge, hold, keep_silent, later
from relay import free_ports, is_listened_at, steady
from stopping import LEFT, answer_of, left_of

pytestmark = pytest.mark.quick

DAY = 86_400_000  # a flush_interval that only a stop cuts short
ALL = "all is delivered"
both = pytest.mark.parametrize("readers", [1, 4], ids=["1-reader", "4-readers"])


def numbered(count, front=0):
    """So many entries, each with a number of its own."""
    return [(1, {"n": front + number}) for number in range(count)]


def numbers(hop):
    """The numbers of the entries that a server got, in order."""
    return sorted(record["n"] for _, _, record in hop.entries())


def told_to_the_end(source):
    """What a source is told until the relay closes."""
    told = []
    while True:
        try:
            told.append(source.told())
        except (ConnectionError, EOFError):
            return told


def is_with_relay(source):
    """Whether all that a source sent lies at the relay's end: its own system holds none of it back.

    A sender's system sends the first ten pieces, or with Nagle's rule the first one, and the others once the receiver's has
    acknowledged those. That may take the receiver's 40 ms, where the relay reads nothing.
    """
    (held,) = struct.unpack("i", fcntl.ioctl(source.stream.link, termios.TIOCOUTQ, bytes(4)))
    return held == 0


def is_open(source):
    """Whether the relay has not closed a source's connection."""
    source.stream.link.setblocking(False)
    try:
        return source.stream.link.recv(1, socket.MSG_PEEK) != b""
    except BlockingIOError:
        return True
    finally:
        source.stream.link.settimeout(30)


def is_taking(one, source):
    """Whether a relay goes on taking what a source sends."""
    steady(lambda: one.page()[0].accepted, 1)
    return bool(select.select([], [source.stream.link], [], 0)[1])


# ---- sources


@both
def test_who_does_not_ask_loses_nothing(stoppable, next_hop, readers):
    """Sources that sent a moment ago, never ask and stay: all comes, long before the chunks are due."""
    hop = next_hop()
    one = stoppable([{"servers": [hop.port], "flush_interval": DAY}])
    sources = [one.source() for _ in range(2 * readers)]
    for place, source in enumerate(sources):
        for number in range(100):
            source.send(entries=numbered(1, 100 * place + number))
    began = time.monotonic()
    asked = one.stop()
    assert (asked.status, asked.errors, asked.told[-1]) == (0, "", ALL)
    assert one.ended() == 0
    assert numbers(hop) == list(range(100 * len(sources)))
    assert time.monotonic() - began < 30
    assert not any(is_open(source) for source in sources)
    one.await_line("stopping: asked, [0-9]+ entries held")
    one.await_line("stopped: all is delivered")


@both
def test_who_connects_for_each_request_loses_nothing(stoppable, next_hop, readers):
    """Requests of sources that had closed by then come too."""
    hop = next_hop()
    one = stoppable([{"servers": [hop.port], "flush_interval": DAY}])
    for number in range(100):
        with one.source() as source:
            source.send(entries=numbered(1, number))
    assert one.stop().status == 0
    assert numbers(hop) == list(range(100))


@both
def test_who_asks_is_told(stoppable, next_hop, readers):
    """Sources in mid-stream: each is told of what was delivered, and of nothing else."""
    hop = next_hop(answer=later(0.002))
    one = stoppable([{"servers": [hop.port], "chunk_limit": 500, "window": 8, "flush_interval": 20}])
    sources = [one.source() for _ in range(2 * readers)]
    for place, source in enumerate(sources):
        for number in range(200):
            source.send(entries=numbered(1, 1000 * place + number), chunk=f"{1000 * place + number}")
    hop.await_entries(20)
    asked = one.stop(60)
    told = []
    for source in sources:
        with pytest.raises(ConnectionError):
            while True:
                told.append(int(source.told()))
    assert asked.status == 0
    assert len(told) == len(set(told)) >= 20
    assert sorted(told) == numbers(hop)


def test_what_comes_later_stays_unacknowledged(stoppable, next_hop):
    """A source that is owed an acknowledgement goes on sending: what it sends now is sent on, and not told, so that it sends it again."""
    hop = next_hop(answer=hold)
    one = stoppable([{"servers": [hop.port], "flush_interval": 0}])
    source = one.source()
    source.send(entries=numbered(1), chunk="first")
    hop.await_entries(1)
    asking = one.ask(60)
    one.until(lambda: not is_listened_at(one.port), "it listens on")
    time.sleep(0.5)  # it reads what is there, which is nothing
    source.send(entries=numbered(1, 1), chunk="second")
    hop.release()
    assert source.told() == "first"
    with pytest.raises(ConnectionError):
        source.told()
    assert answer_of(asking).status == 0
    assert numbers(hop) == [0, 1]


def test_an_unfinished_request_is_dropped(stoppable, next_hop):
    """Requests before it come, and the source that keeps the rest back holds nobody up."""
    hop = next_hop()
    one = stoppable([{"servers": [hop.port], "flush_interval": DAY}])
    source = one.source()
    source.send(entries=numbered(1))
    source.stream.link.sendall(request("forward", "app", numbered(9, 1))[:-3])
    assert one.stop().status == 0
    assert numbers(hop) == [0]


@both
def test_who_never_reads_holds_nobody_up(stoppable, next_hop, readers):
    """A source that asks and takes no acknowledgement, beside one that does."""
    hop = next_hop()
    one = stoppable([{"servers": [hop.port], "flush_interval": DAY}])
    deaf, other = one.source(), one.source()
    for number in range(300):
        deaf.send(entries=numbered(1, number), chunk=f"{number:0100}")
    other.send(entries=numbered(1, 300), chunk="other")
    assert one.stop(60).status == 0
    assert other.told() == "other"
    assert numbers(hop) == list(range(301))


def test_who_takes_nothing_is_waited_for_as_long_as_it_says(stoppable, next_hop):
    """A source that lets too many acknowledgements wait is not told all: the time is used up, and it was not read to its end."""
    hop = next_hop()
    one = stoppable([{"servers": [hop.port], "flush_interval": 10}])
    deaf = one.source()
    deaf.stream.link.setsockopt(socket.SOL_SOCKET, socket.SO_RCVBUF, 1)
    deaf.stream.link.settimeout(2)
    sent = request("message", "app", numbered(1), "x" * 100) * 1_000
    while is_taking(one, deaf):
        with pytest.raises(TimeoutError):
            for _ in range(1_000):
                deaf.stream.link.sendall(sent)
    one.await_page(lambda it: it.accepted > 0 and it.held == 0)
    began = time.monotonic()
    asked = one.stop(2)
    assert asked.status == 6
    assert asked.told[-1] == "left 0 entries, 0 of sources that do not ask; 1 sources not read to the end"
    assert time.monotonic() - began >= 2


@both
def test_who_sends_on_and_on_is_cut_off(stoppable, next_hop, readers):
    """A source that sends as fast as it can is read to a bound, and the stop comes to its end, and says so."""
    hop = next_hop(take=lambda frame: None)
    one = stoppable([{"servers": [hop.port], "full": "wait", "total_limit": 50_000_000}])
    source = one.source(timeout=60)
    sent = request("packed", "app", numbered(10_000))
    for _ in range(20):
        source.stream.link.sendall(sent)
    asking = one.ask(120)
    with pytest.raises(OSError):
        while True:
            source.stream.link.sendall(sent)
    asked = answer_of(asking)
    assert asked.status == 6
    assert asked.told[-1].endswith("; 1 sources not read to the end")


# ---- next hops


@both
def test_a_next_hop_that_is_away(stoppable, readers):
    """What cannot be delivered is left in the time that was given, and said."""
    one = stoppable([{"servers": free_ports(1), "flush_interval": DAY}])
    source = one.source()
    for number in range(25):
        source.send(entries=numbered(1, number))
    began = time.monotonic()
    asked = one.stop(2)
    assert 1.5 < time.monotonic() - began < 20
    assert left_of(asked)[:2] == (25, 25)
    assert asked.told[0].endswith("1 sources") or "25 entries" in asked.told[0]
    assert one.ended() == LEFT
    one.await_line("stopped: left 25 entries, 25 of sources that do not ask")


@both
def test_a_next_hop_that_comes_back_in_time(stoppable, next_hop, readers):
    """All comes."""
    (port,) = free_ports(1)
    one = stoppable([{"servers": [port], "flush_interval": DAY}])
    source = one.source()
    for number in range(25):
        source.send(entries=numbered(1, number), chunk=str(number))
    asking = one.ask(60)
    one.await_line("server lost: output 0")
    hop = next_hop(port=port)
    assert [source.told() for _ in range(25)] == [str(number) for number in range(25)]
    asked = answer_of(asking)
    assert (asked.status, asked.told[-1]) == (0, ALL)
    assert numbers(hop) == list(range(25))


def test_a_standby_takes_over(stoppable, next_hop):
    """What a server that fell silent has is sent again to the standby."""
    silent, standby = next_hop(answer=keep_silent), next_hop()
    servers = [silent.port, {"port": standby.port, "standby": True}]
    one = stoppable([{"servers": servers, "ack_wait": 500, "flush_interval": 0}])
    source = one.source()
    source.send(entries=numbered(50), chunk="x")
    silent.await_entries(50)
    assert one.stop(60).status == 0
    assert source.told() == "x"
    assert numbers(standby) == list(range(50))


@both
def test_a_full_output_that_waits(stoppable, next_hop, readers):
    """Requests that wait for room, of sources that ask and of others, come too."""
    one, hop, sources = full_and_waiting(stoppable, next_hop)
    one.until(lambda: all(map(is_with_relay, sources)), "a source's system holds bytes back")
    assert one.stop(120).status == 0
    assert [number for number in numbers(hop) if number >= 0] == list(range(400))
    for source in sources[1::2]:
        assert told_to_the_end(source) == [str(number) for number in range(100)]


@both
def test_what_a_sender_holds_back(stoppable, next_hop, readers):
    """A source's system may hold back some of what it sent, where the relay finds no more. All of a source that never asks comes. One
    that asks is told of what came and of no more: it sends the rest again."""
    one, hop, sources = full_and_waiting(stoppable, next_hop)
    assert one.stop(120).status == 0
    got = {number for number in numbers(hop) if number >= 0}
    for place, source in enumerate(sources):
        told = told_to_the_end(source) if place % 2 else [str(number) for number in range(100)]
        assert told and told == [str(number) for number in range(len(told))]
        assert {number - 100 * place for number in got if number // 100 == place} == set(range(len(told)))


def full_and_waiting(stoppable, next_hop):
    """A relay whose output is full, with its server and four sources that sent a hundred requests each. Each second one asks."""
    hop = next_hop(answer=later(0.01))
    keys = {"full": "wait", "total_limit": 2_000, "chunk_limit": 500, "flush_interval": DAY}
    one = stoppable([{"servers": [hop.port]} | keys])
    sources = [one.source() for _ in range(4)]
    for place, source in enumerate(sources):
        for number in range(100):
            chunk = str(number) if place % 2 else None
            source.send(entries=numbered(1, 100 * place + number) + [(1, {"n": -1, "s": "x" * 50})], chunk=chunk)
    one.await_line("output 0 full")
    return one, hop, sources


@both
def test_windows_and_workers(stoppable, next_hop, readers):
    """Several workers, each with many chunks under way, over several tags and outputs."""
    hops = [next_hop(answer=later(0.001)) for _ in range(2)]
    keys = {"workers": 4, "window": 8, "chunk_limit": 300, "flush_interval": DAY}
    outputs = [{"match": "a.**", "servers": [hops[0].port]} | keys, {"match": "**", "servers": [hops[1].port]} | keys]
    one = stoppable(outputs)
    sources = [one.source() for _ in range(8)]
    for place, source in enumerate(sources):
        for number in range(50):
            source.send(tag=f"{'ab'[number % 2]}.{number % 7}", entries=numbered(1, 50 * place + number))
    assert one.stop(60).status == 0
    assert sorted(numbers(hops[0]) + numbers(hops[1])) == list(range(400))


# ---- meanwhile


def test_monitors_are_served_to_the_end(stoppable, next_hop):
    """The page and the gauge are served while it drains, and a monitor that does not read holds nobody up."""
    hop = next_hop(answer=hold)
    one = stoppable([{"servers": [hop.port], "flush_interval": 0}], metrics=True)
    metrics = lambda: fetch(one.monitor, "/metrics")
    one.source().send(entries=numbered(3))
    hop.await_entries(3)
    assert "\nforward_relay_draining 0\n" in metrics()
    deaf = socket.create_connection((HOST, one.monitor))
    deaf.sendall(b"GET /metrics HTTP/1.0\r\n\r\n" * 50)
    asking = one.ask(60)
    one.until(lambda: "\nforward_relay_draining 1\n" in metrics(), "the gauge stays")
    assert one.page()[0].held == 3
    one.until(lambda: not is_listened_at(one.port), "it listens on")
    hop.release()
    asked = answer_of(asking)
    assert (asked.status, asked.told[0].split(",")[0]) == (0, "held 3 entries")
    deaf.close()


def fetch(port, path):
    """What a monitor is answered."""
    with socket.create_connection((HOST, port), timeout=30) as link:
        link.sendall(f"GET {path} HTTP/1.0\r\n\r\n".encode())
        return b"".join(iter(lambda: link.recv(1 << 16), b"")).decode()


def test_progress_and_last_page(stoppable):
    """Who asks sees each second what is held, and the relay prints its page in the end."""
    (away,) = free_ports(1)
    with open(stoppable.folder / "page", "wb") as page:
        one = stoppable([{"servers": [away], "flush_interval": 0}], stdout=page)
        one.source().send(entries=numbered(7))
        one.await_page(lambda it: it.held == 7)
        asked = one.stop(4)
    assert asked.status == one.ended() == LEFT
    assert 3 <= asked.told[:-1].count("held 7 entries, 0 sources") + asked.told.count("held 7 entries, 1 sources") <= 6
    assert (stoppable.folder / "page").read_text().startswith("output 0 accepted 7 settled 0 held 7 ")


def test_last_page_of_two_outputs(stoppable, next_hop):
    """The last page has the counts of each output, in the settings' order."""
    first, second = next_hop(), next_hop()
    outputs = [{"match": "a", "servers": [first.port]}, {"servers": [second.port]}]
    with open(stoppable.folder / "page", "wb") as page:
        one = stoppable(outputs, stdout=page)
        source = one.source()
        source.send("a", numbered(2), chunk="2")
        source.send("b", numbered(3), chunk="3")
        assert sorted((source.told(), source.told())) == ["2", "3"]
        assert one.stop(4).status == one.ended() == 0
    lines = (stoppable.folder / "page").read_text().splitlines()
    assert [line for line in lines if line.startswith("output ")] == [
        f"output {number} accepted {count} settled {count} held 0 bytes 0 chunks 0"
        for number, count in enumerate((2, 3))
    ]


def test_a_second_one_shortens_the_wait(stoppable, next_hop):
    """Who asks for less time gets that, and who asks for more does not."""
    hop = next_hop(answer=hold)
    one = stoppable([{"servers": [hop.port], "flush_interval": 0}])
    one.source().send(entries=numbered(4))
    hop.await_entries(4)
    first, long = one.ask(3600), one.ask(86_400)
    one.await_line("stopping: asked, 4 entries held")
    short = one.ask(1)
    for asking in (short, first, long):
        assert left_of(answer_of(asking))[:2] == (4, 4)
    assert one.ended() == LEFT
    assert one.lines("stopping:") == 1


def test_turns_end_as_ever(stoppable, next_hop):
    """A relay with a count of turns and a socket makes them, and takes the socket away."""
    one = stoppable([{"servers": [next_hop().port]}], turns=3)
    assert one.ended() == 0
    one.await_line("stopped: all turns are made")
    assert not pathlib.Path(one.control).exists()


def test_a_kill_while_it_drains_acknowledges_nothing(stoppable, next_hop):
    """What a drain has not delivered is unacknowledged, whatever ends it."""
    hop = next_hop(answer=hold)
    one = stoppable([{"servers": [hop.port], "flush_interval": 0}])
    source = one.source()
    source.send(entries=numbered(1), chunk="x")
    hop.await_entries(1)
    asking = one.ask(60)
    one.await_line("stopping:")
    one.process.kill()
    asked = answer_of(asking)
    assert (asked.status, asked.errors) == (4, "stop: no answer\n")
    with pytest.raises(OSError):
        source.told()


def test_handlers_of_traffic_go_on(stoppable, next_hop):
    """A relay that nobody asks does as ever."""
    hop = next_hop(answer=acknowledge)
    one = stoppable([{"servers": [hop.port]}])
    one.source().ask()
    assert "stopping" not in one.journal()
