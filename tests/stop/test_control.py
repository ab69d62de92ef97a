"""The control socket: who is there, what is said there, and where it cannot be."""

import contextlib
import os
import pathlib
import socket
import subprocess
import time

import pytest

from relay import DEADLINE, free_ports, settings, until
from silent import frozen
from stopping import LEFT, Stoppable, answer_of

pytestmark = pytest.mark.quick
PAUSE = pathlib.Path(__file__).with_name("pause.c")


def control(one):
    """A connection to a relay's control socket."""
    link = socket.socket(socket.AF_UNIX)
    link.settimeout(30)
    link.connect(one.control)
    return link


def said(link):
    """All that a relay says on a connection until it ends, by lines."""
    return b"".join(iter(lambda: link.recv(100), b"")).decode().splitlines()


def is_closed(link):
    """Whether the relay closed a connection, which it says nothing on."""
    try:
        return link.recv(100) == b""
    except ConnectionError:
        return True


@pytest.mark.parametrize(
    "said",
    [b"\n", b"stop\n", b"stop 0\n", b"stop 86400001\n", b"stop -1\n", b"stop 1 2\n", b"start 5\n", b"\xff\xfe\n"]
    + [b"x" * 100, b"GET / HTTP/1.0\r\n\r\n", b"stop 5\nstop 5\n", b"stop 99999999999999999999999\n"]
    + [b"stop +5\n", b"stop 0005\n", b"stop 05\n", b"stop  5\n", b"stop 5 \n", b" stop 5\n", b"stop 5\r\n"],
)
def test_nothing_else_is_understood(stoppable, next_hop, said):
    """What is no request ends the connection, and nothing more."""
    hop = next_hop()
    one = stoppable([{"servers": [hop.port]}])
    with control(one) as link:
        link.sendall(said)
        assert is_closed(link)
    one.source().ask()
    assert "stopping" not in one.journal()
    assert one.stop().status == 0


def test_many_connections(stoppable, next_hop):
    """Some stand, the others are closed; sources are served, and who asks is heard."""
    one = stoppable([{"servers": [next_hop().port]}])
    files = one.files()
    links = [control(one) for _ in range(64)]
    one.source().ask()
    one.until(lambda: one.files() <= files + 8 + 3, "all stand")
    asked = one.stop()
    assert asked.status == 0
    for link in links:
        link.close()


def test_who_asked_is_heard_before_others(stoppable, next_hop):
    """A request that has come is heard, however many connect behind it before the relay looks."""
    one = stoppable([{"servers": [next_hop().port]}])
    with contextlib.ExitStack() as links:
        with frozen(one):
            asking = links.enter_context(control(one))
            asking.sendall(b"stop 5000\n")
            for _ in range(100):
                links.enter_context(control(one))
        assert said(asking)[-1] == "all is delivered"
    assert one.ended() == 0


def test_who_asks_late_is_heard_before_others(stoppable, next_hop):
    """So is one of a connection that stood before, and is the oldest."""
    one = stoppable([{"servers": [next_hop().port]}])
    files = one.files()
    with contextlib.ExitStack() as links:
        asking = links.enter_context(control(one))
        one.until(lambda: one.files() > files, "it is not taken")
        with frozen(one):
            asking.sendall(b"stop 5000\n")
            for _ in range(100):
                links.enter_context(control(one))
        assert said(asking)[-1] == "all is delivered"
    assert one.ended() == 0


def test_who_asked_is_not_replaced(stoppable):
    """While the relay drains, others that connect take the places of those that have asked nothing."""
    one = stoppable([{"servers": free_ports(1)}])
    one.source().send()
    one.await_page(lambda it: it.held == 1)
    with contextlib.ExitStack() as links:
        asking = links.enter_context(control(one))
        asking.sendall(b"stop 1000\n")
        one.await_line("stopping: asked")
        for _ in range(100):
            links.enter_context(control(one))
        assert said(asking)[-1].startswith("left 1 entries")
    assert one.ended() == LEFT


def test_who_asked_may_end_its_side(stoppable):
    """It is answered all the same, to the end; and costs the relay nothing meanwhile."""
    one = stoppable([{"servers": free_ports(1)}])
    one.source().send()
    one.await_page(lambda it: it.held == 1)
    began, processor = time.monotonic(), one.processor()
    with control(one) as link:
        link.sendall(b"stop 1500\n")
        link.shutdown(socket.SHUT_WR)
        told = said(link)
    spent = one.processor() - processor
    assert len(told) >= 3 and told[0].startswith("held 1 entries, ")
    assert told[-1].startswith("left 1 entries")
    assert spent < (time.monotonic() - began) / 2
    assert one.ended() == LEFT


def test_a_request_in_pieces(stoppable, next_hop):
    """Bytes that come one by one are a request once it is whole; the answers come, and the end."""
    one = stoppable([{"servers": [next_hop().port]}])
    with control(one) as link:
        for byte in b"stop 5000\n":
            link.sendall(bytes([byte]))
            time.sleep(0.02)
        assert said(link) == ["held 0 entries, 0 sources", "all is delivered"]
    assert one.ended() == 0


def test_who_asked_may_go(stoppable, next_hop):
    """A relay that was asked stops, also where nobody waits for it."""
    one = stoppable([{"servers": [next_hop().port], "flush_interval": 60_000}])
    one.source().send()
    with control(one) as link:
        link.sendall(b"stop 5000\n")
    assert one.ended() == 0


def test_its_file(stoppable, next_hop):
    """Only its owner may connect by the usual umask, and it is gone in the end."""
    one = stoppable([{"servers": [next_hop().port]}])
    path = pathlib.Path(one.control)
    assert path.is_socket() and path.stat().st_mode & 0o022 == 0
    assert one.stop().status == 0
    one.ended()
    assert not path.exists()


def test_a_socket_that_was_left(stoppable, next_hop, tmp_path):
    """A relay that was killed leaves its socket, and the next one replaces it."""
    path = str(tmp_path / "left")
    hop = next_hop()
    first = stoppable([{"servers": [hop.port]}], control=path)
    first.kill()
    assert pathlib.Path(path).is_socket()
    asked = first.stop()
    assert asked.status == 4 and asked.errors == f"stop: {path}: Connection refused (os error 111)\nstop: no answer\n"
    second = stoppable([{"servers": [hop.port]}], control=path)
    second.source().ask()
    assert second.stop().status == 0


def refused(program, path, folder):
    """How a relay ends that cannot have its socket at a path."""
    file = folder / "refused.toml"
    (port,) = free_ports(1)
    file.write_text(settings({"listen": f"127.0.0.1:{port}", "control": str(path)}, [{"servers": [9]}]))
    env = {key: value for key, value in os.environ.items() if key != "FORWARD_RELAY_LOG"}
    done = subprocess.run([program, "run", file, "1"], capture_output=True, text=True, timeout=60, env=env)
    return done.returncode, done.stderr


def test_where_another_relay_answers(stoppable, next_hop, program, tmp_path):
    """The start ends, as with an address that is taken, and the other one is not troubled."""
    one = stoppable([{"servers": [next_hop().port]}])
    path = one.control
    cause = f"listen: {path}: Address already in use (os error 98)\nlisten: {path}\n"
    assert refused(program, path, tmp_path) == (4, cause)
    one.source().ask()
    assert one.stop().status == 0


def left_behind(path):
    """Leaves a socket's file at a path, at which nobody listens."""
    with socket.socket(socket.AF_UNIX) as link:
        link.bind(str(path))


def at(kind, path):
    """The key of settings by which a relay has its control socket, or its sources', at a path."""
    return {kind: str(path) if kind == "control" else f"unix:{path}"}


def await_start(one):
    """Waits until a relay runs, or has ended."""
    one.until(lambda: not one.is_up() or one.lines("listening: sources"), "it neither runs nor ends")


@pytest.mark.parametrize("kind", ["control", "listen"])
def test_two_relays_that_start_at_once(program, next_hop, tmp_path, kind):
    """One has looked at a socket that was left, and has yet to remove it, when another starts: one of both runs."""
    pause = tmp_path / "pause.so"
    subprocess.run([*"cc -O2 -Wall -Wextra -Werror -shared -fPIC -o".split(), pause, PAUSE, "-ldl"], check=True)
    path, mark = tmp_path / "shared", tmp_path / "paused"
    left_behind(path)
    held_up = {"LD_PRELOAD": str(pause), "PAUSE_AT": str(path), "PAUSED": str(mark)}
    made = lambda name, **how: Stoppable(
        program, tmp_path, [{"servers": [next_hop().port]}], **{"control": str(tmp_path / name)} | at(kind, path) | how
    )
    with made("first", environment=held_up) as first, made("second") as second:
        first.begin()
        until(mark.exists, "it does not remove what was left")
        second.begin()
        await_start(second)
        mark.unlink()
        await_start(first)
        assert [first.is_up(), second.is_up()].count(True) == 1
        one, other = (first, second) if first.is_up() else (second, first)
        assert other.ended() == 4 and "Address already in use" in other.journal()
        assert one.stop().status == one.ended() == 0


def test_a_lock_that_was_left(stoppable, next_hop, tmp_path):
    """A relay that was killed while it took its path may leave a file beside it, which is no harm, and goes."""
    path, lock = tmp_path / "locked", tmp_path / "locked.lock"
    lock.touch()
    one = stoppable([{"servers": [next_hop().port]}], control=str(path))
    assert not lock.exists()
    assert one.stop().status == 0
    one.ended()
    assert not lock.exists() and not path.exists()


@pytest.mark.parametrize("kind", ["control", "listen"])
@pytest.mark.parametrize("is_answered", [True, False])
def test_a_path_that_another_has_by_now(stoppable, next_hop, tmp_path, kind, is_answered):
    """At its end a relay removes its own file, and no other that has the path by then."""
    path, kept = tmp_path / "here", tmp_path / "kept"
    one = stoppable([{"servers": [next_hop().port]}], **at(kind, path))
    path.rename(kept)
    with socket.socket(socket.AF_UNIX) as link:
        link.bind(str(path))
        if is_answered:
            link.listen()
        else:
            link.close()
        other = path.stat().st_ino
        with socket.socket(socket.AF_UNIX) as asking:
            asking.settimeout(DEADLINE)
            asking.connect(str(kept) if kind == "control" else one.control)
            asking.sendall(b"stop 5000\n")
            assert said(asking)[-1] == "all is delivered"
        assert one.ended() == 0
        assert path.stat().st_ino == other


def test_a_path_that_cannot_be_made(program, tmp_path):
    """A folder that is not there, and a file that is no socket, which stays."""
    path = tmp_path / "none" / "control"
    cause = f"listen: {path}: No such file or directory (os error 2)\nlisten: {path}\n"
    assert refused(program, path, tmp_path) == (4, cause)
    path = tmp_path / "file"
    path.write_text("kept")
    cause = f"listen: {path}: Address already in use (os error 98)\nlisten: {path}\n"
    assert refused(program, path, tmp_path) == (4, cause)
    assert path.read_text() == "kept"


def test_calls(program, tmp_path):
    """Settings without a socket, no relay, and words that are no call."""
    call = lambda *words: subprocess.run([program, "stop", *words], capture_output=True, text=True, timeout=60)
    file = tmp_path / "relay.toml"
    file.write_text(settings({}, [{"servers": [9]}]))
    done = call(file)
    allowed = "allowed is a path of 1 to 107 bytes without a zero byte, in quotes"
    cause = f"settings: {file} line 1: relay.control is required: {allowed}\nsettings: missing relay.control\n"
    assert (done.returncode, done.stdout, done.stderr) == (1, "", cause)
    file.write_text(settings({"control": str(tmp_path / "none")}, [{"servers": [9]}]))
    done = call(file)
    cause = f"stop: {tmp_path}/none: No such file or directory (os error 2)\nstop: no answer\n"
    assert (done.returncode, done.stdout, done.stderr) == (4, "", cause)
    assert call(tmp_path / "no file").returncode == 1
    for words in ([], [file, "0"], [file, "86401"], [file, "01"], [file, "+1"], [file, "x"], [file, "1", "2"]):
        assert call(*words).returncode == 2, words


def test_the_time_of_the_settings(stoppable):
    """Without seconds the relay has `stop_wait`."""
    one = stoppable([{"servers": free_ports(1)}], stop_wait=700)
    one.source().send()
    one.await_page(lambda it: it.held == 1)
    began = time.monotonic()
    assert one.stop().status == LEFT
    assert time.monotonic() - began < 20


def all_of(terminal):
    """All that was written to a terminal whose other side is closed."""
    told = b""
    with contextlib.suppress(OSError), open(terminal, "rb", buffering=0) as side:  # reads fail once nothing is left
        while piece := side.read(4096):
            told += piece
    return told.decode()


def test_a_terminal(stoppable):
    """On a terminal each answer takes the place of the one before."""
    one = stoppable([{"servers": free_ports(1)}])
    one.source().send()
    one.await_page(lambda it: it.held == 1)
    ours, theirs = os.openpty()
    asking = subprocess.Popen(
        [one.program, "stop", str(one.path), "2"], stdout=theirs, stderr=subprocess.PIPE, text=True
    )
    assert answer_of(asking).status == LEFT
    os.close(theirs)
    told = all_of(ours)
    assert told.count("\n") == 1 and told.count("\r\x1b[Kheld 1 entries") >= 2
    assert "\r\x1b[Kleft 1 entries, " in told and told.endswith("\r\n")
