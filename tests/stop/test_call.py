"""The call that has a relay stop: what it makes of the answers, and of a relay that hangs."""

import contextlib
import socket
import subprocess
import threading

import pytest

from relay import DEADLINE, settings
from stopping import LEFT


@pytest.fixture
def asked(program, tmp_path):
    """How a call ends that asks who listens at a path: its status, what it shows, and what it says on standard error."""

    def call(path):
        file = tmp_path / "asked.toml"
        file.write_text(settings({"control": str(path)}, [{"servers": [9]}]))
        done = subprocess.run([program, "stop", file], capture_output=True, text=True, timeout=DEADLINE)
        return done.returncode, done.stdout, done.stderr

    return call


@contextlib.contextmanager
def listening(path):
    """Who listens at a path, in place of a relay: one connection at a time waits there."""
    with socket.socket(socket.AF_UNIX) as listener:
        listener.settimeout(DEADLINE)
        listener.bind(str(path))
        listener.listen(0)
        yield listener


@contextlib.contextmanager
def filled(path):
    """A queue of connections that is full, by how many."""
    with contextlib.ExitStack() as links:
        for count in range(10):
            link = links.enter_context(socket.socket(socket.AF_UNIX))
            link.setblocking(False)
            if link.connect_ex(str(path)):
                yield count
                return
            link.send(b"stop 1\n")
        raise AssertionError("it is not full")


def answer(listener, answers, count=1):
    """Takes so many connections, reads what each asks, and answers so."""
    for _ in range(count):
        with listener.accept()[0] as link:
            link.recv(100)
            link.sendall(answers)


@contextlib.contextmanager
def answering(path, answers):
    """Who takes a connection at a path, and answers so."""
    with listening(path) as listener:
        thread = threading.Thread(target=answer, args=(listener, answers))
        thread.start()
        yield
        thread.join()


@pytest.mark.quick
@pytest.mark.parametrize(
    "last",
    ["left 5 entries, 2 of sources that do not ask"]
    + ["left 0 entries, 0 of sources that do not ask; 3 sources not read to the end"],
)
def test_what_is_left(asked, tmp_path, last):
    """The call shows what is left and says it, with a status of its own: also where it is a source that was not read."""
    with answering(tmp_path / "relay", f"held 5 entries, 3 sources\n{last}\n".encode()):
        told = asked(tmp_path / "relay")
    assert told == (LEFT, f"held 5 entries, 3 sources\n{last}\n", f"{last}\n")


@pytest.mark.quick
@pytest.mark.parametrize(
    "last", ["left 5 entries", "left +5 entries, 0 of sources that do not ask", "all is delivered ", "held 5 entries"]
)
def test_what_is_no_answer(asked, tmp_path, last):
    """It is passed over. So is a number that no relay spells so."""
    with answering(tmp_path / "relay", f"held 05 entries, 3 sources\n{last}\n".encode()):
        assert asked(tmp_path / "relay") == (4, "", "stop: no answer\n")


@pytest.mark.quick
def test_a_queue_that_is_full_for_a_time(asked, tmp_path):
    """The call tries to connect again."""
    path, answers = tmp_path / "relay", b"all is delivered\n"
    with listening(path) as listener, filled(path) as count:
        later = threading.Timer(0.5, answer, (listener, answers, count + 1))
        later.start()
        assert asked(path) == (0, answers.decode(), "")
        later.join()


@pytest.mark.minutes
@pytest.mark.parametrize(
    ("is_full", "why"),
    [(True, "the relay took no connection within 10 s"), (False, "the relay said nothing for 30 s")],
)
def test_a_relay_that_hangs(asked, tmp_path, is_full, why):
    """It takes no connection, or says nothing on one: the call ends, and says why."""
    path = tmp_path / "relay"
    with listening(path), filled(path) if is_full else contextlib.nullcontext():
        assert asked(path) == (4, "", f"stop: {path}: {why}\nstop: no answer\n")
