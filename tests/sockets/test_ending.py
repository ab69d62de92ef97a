"""A reading thread whose wait fails for good ends the run with a status, whichever thread it is."""

import pytest

from relay import Relay, until
from shim import Board, environment

READERS = 4
SOURCES = 8  # two for each reading thread


@pytest.fixture
def breaking(program, shim, tmp_path):
    """Starts a relay of so many reading threads to a server, whose waits the board that comes with it makes fail."""
    started = []

    def start(readers, server):
        board = Board(tmp_path / "board")
        keys = {"readers": readers, "environment": environment(shim, fail_board=board.path)}
        started.append(Relay(program, tmp_path, [{"servers": [server.port]}], **keys))
        return started[-1].start(), board

    yield start
    for one in started:
        one.kill()


def ask(one):
    """Sources of all reading threads are told."""
    sources = [one.source() for _ in range(SOURCES)]
    for number, source in enumerate(sources):
        source.ask("told", [(number, {"number": number})])


def await_end(one, board):
    """The run ends with 4, and says why: in its journal, and behind it."""
    until(lambda: not one.is_up(), board.counts)
    assert one.ended() == 4, one.journal()
    assert one.journal().splitlines()[-2:] == ["stopped: start: poll", "start: poll"]


@pytest.mark.quick
@pytest.mark.parametrize("readers", [1, READERS])
def test_waits_that_fail_in_the_first_reader(breaking, next_hop, readers):
    """The thread that has the listeners cannot wait any more: the workers and the other readers end, too."""
    server = next_hop()
    one, board = breaking(readers, server)
    ask(one)
    board.break_first()
    await_end(one, board)
    assert server.count() == SOURCES


@pytest.mark.quick
@pytest.mark.parametrize("broken", [1, READERS - 1])
def test_waits_that_fail_beside_the_first_reader(breaking, next_hop, broken):
    """One of the threads beside the first cannot wait any more, or none of them can: the run ends with 4, and says why.

    What was acknowledged before has come to the server. The others end once one fails, so that theirs may not fail any more.
    """
    server = next_hop()
    one, board = breaking(READERS, server)
    ask(one)
    board.break_readers(broken)
    await_end(one, board)
    assert 1 <= board.counts()["broken"] <= broken
    assert server.count() == SOURCES
